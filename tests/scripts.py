"""Plays scripts of tests/ side by side, each in a folder of its own, and adds up what their last lines count."""
import glob
import os
import re
import subprocess
import tempfile
import threading
import time

TOP = os.path.dirname(os.path.dirname(os.path.abspath(__file__)))
# The longest ones begin first, so that none runs alone at the end.
LONGEST = ("refused", "every", "fuzz", "memory", "clients", "pqx", "journaled", "renewal", "etcd", "named", "pqd", "check")
COUNTED = re.compile(r"^([0-9]+) passed, ([0-9]+) failed(?:, ([0-9]+) left out)?$")
BEGUN = time.monotonic()


def say(text):
    spent = int(time.monotonic() - BEGUN)
    print(f"{spent // 60:3}:{spent % 60:02}  {text}", flush=True)


def names():
    """The scripts of tests/, the longest first."""
    found = {os.path.basename(it)[:-3] for it in glob.glob(f"{TOP}/tests/*.sh")} - {"cases"}
    return sorted(found, key=lambda it: (LONGEST.index(it) if it in LONGEST else len(LONGEST), it))


def programs_of(name):
    """The programs that a script needs: the words of its line `need`."""
    with open(f"{TOP}/tests/{name}.sh", encoding="utf-8") as it:
        found = re.search(r"^need (.*)$", it.read(), re.M)
    return re.findall(r"\$(\w+)", found[1]) if found else []


def played(name, shows, environment):
    """Plays a script, and returns how many passed, failed and were left out."""
    begun = time.monotonic()
    with tempfile.TemporaryFile("w+", errors="replace") as out:
        how = {"stdin": subprocess.DEVNULL, "stdout": out, "stderr": subprocess.STDOUT, "cwd": TOP}
        status = subprocess.run(["bash", f"tests/{name}.sh"], env={**os.environ, **environment}, **how).returncode
        out.seek(0)
        said = out.read().splitlines()
    counted = COUNTED.match(said[-1]) if said else None
    passed, failed, left = (int(it or 0) for it in counted.groups()) if counted else (0, 0, 0)
    if (status or not counted) and not failed:
        said += [f"FAILED: tests/{name}.sh ended with status {status}, and counts no failure", ""]
        failed = 1
    shown = said[:-1] if failed or shows else [it for it in said[:-1] if it.startswith("left out: ")]
    counts = f"{passed} passed, {failed} failed" + f", {left} left out" * bool(left)
    say("\n".join([f"{name}: {counts} ({time.monotonic() - begun:.0f} s)", *shown]))
    return passed, failed, left


def side_by_side(tasks, lanes):
    """Runs tasks, so many at a time, and returns what each counted: by its name, what it waits for and its call."""
    given, left, changed = {}, dict(tasks), threading.Condition()

    def work(name, call):
        result = 0, 1, 0
        try:
            result = call()
        except Exception as error:
            say(f"{name} FAILED: {error!r}")
        with changed:
            given[name] = result
            changed.notify()

    begun = 0
    with changed:
        while left or begun > len(given):
            ready = [name for name, (waits, _) in left.items() if all(it in given for it in waits)]
            if ready and begun - len(given) < lanes:
                begun += 1
                threading.Thread(target=work, args=(ready[0], left.pop(ready[0])[1])).start()
            else:
                changed.wait()
    return given
