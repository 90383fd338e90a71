"""Plays a script with each allocation refused in turn, a line `again` behind each of its lines: what is printed is what
is printed where none is refused, and beside that lines `refused 6 NoMemory` alone, or pqx says that there is no memory
and prints nothing. It prints how often each came, and which lines were made again, by the first word that they print.

again.py PQX REFUSING NAME SCRIPT WORD..    REFUSING stands before the allocations (tests/refusing.c); pqx's WORDs"""

import concurrent.futures
import os
import re
import subprocess
import sys

REFUSED = b"refused 6 NoMemory\n"


def with_again(text):
    """The script with `again` behind each line but the first that says something."""
    lines, said = [], 0
    for line in text.splitlines():
        lines.append(line)
        if line and not line.startswith(b"#"):
            said += 1
            if said > 1:
                lines.append(b"again")
    return b"\n".join(lines) + b"\n"


def play(command, text, refusing, number):
    """Standard output, standard error and the status with this allocation refused."""
    settings = os.environ | {"LD_PRELOAD": refusing, "REFUSED": str(number)}
    done = subprocess.run(command, input=text, capture_output=True, env=settings, timeout=60)
    return done.stdout, done.stderr, done.returncode


def judged(wanted, played):
    """What became of the refused allocation: the line that was made again, by what it printed, or `said`, or `none`; or
    what is wrong."""
    output, error, status = played
    if status == 1 and error == b"pqx: 6 NoMemory\n" and not output:
        return "said", None
    if status != 0 or error:
        return None, f"it ends with status {status}, and says {error!r}"
    lines = output.splitlines(keepends=True)
    if b"".join(line for line in lines if line != REFUSED) != wanted:
        return None, "beside refusals it prints another transcript"
    if REFUSED not in lines:
        return "none", None
    after = lines[lines.index(REFUSED) + 1:]
    if REFUSED in after:
        return None, "it refuses more than once"
    return re.sub(rb"^[a-z]+: ", b"", after[0]).split()[0].decode() if after else "the last", None


def main():
    pqx, refusing, name, script, *words = sys.argv[1:]
    command = [pqx, *words]
    with open(script, "rb") as file:
        text = file.read()
    wanted = subprocess.run(command, input=text, capture_output=True, check=True).stdout
    text = with_again(text)
    output, counted, status = play(command, text, refusing, 0)
    if output != wanted or status != 0:
        sys.exit(f"{name}: with `again` behind each line, and no memory refused, it prints another transcript")
    count, found, wrong = int(counted), {}, False
    with concurrent.futures.ThreadPoolExecutor(os.cpu_count()) as pool:
        numbers = range(1, count + 1)
        for number, played in zip(numbers, pool.map(lambda each: play(command, text, refusing, each), numbers)):
            what, broken = judged(wanted, played)
            if broken:
                wrong = True
                print(f"{name}: with allocation {number} refused {broken}")
            else:
                found[what] = found.get(what, 0) + 1
    said, none = found.pop("said", 0), found.pop("none", 0)
    again = " ".join(sorted(found))
    made = sum(found.values())
    print(f"{name}: {count} allocations refused, {made} made again, {said} said, {none} not missed: {again}")
    sys.exit(wrong)


if __name__ == "__main__":
    main()
