"""timed_scripts.py PQX ROUNDS: what bench/slots.sh times: `pqx run` and `pqx broker run`, by their processor time."""

import os
import subprocess
import sys
import tempfile

# The lines of a script, and some fewer than it may have.
LINES = 960
NAMES = "abcdefgh"
CALLS, CRASHES, STEPS = 60, 400, 7


def calls(kind, clients, before):
    """Lines that put and take in turn, each client one after another, with this before each line."""
    numbers, lines = [0] * clients, []
    while len(lines) < LINES:
        is_put = numbers[0] % 2 == 0
        for client in range(clients):
            numbers[client] += 1
            number = f" {numbers[client]}" if kind == "log" else ""
            lines.append(f"{before}enq {client}{number} 07000000" if is_put else f"{before}deq {client}{number}")
        lines += [f"{before}end {client}" for client in range(clients)]
    return lines


def run(words, lines):
    """The processor's seconds of a run, its largest resident bytes, and what it prints."""
    with tempfile.TemporaryFile("w+") as script, tempfile.TemporaryFile("w+") as printed:
        script.write("\n".join(lines) + "\n")
        script.flush()
        script.seek(0)
        process = subprocess.Popen([sys.argv[1], *words], stdin=script, stdout=printed)
        _, status, usage = os.wait4(process.pid, 0)
        if status:
            sys.exit(f"pqx {words} ends with status {status}")
        printed.seek(0)
        return usage.ru_utime + usage.ru_stime, usage.ru_maxrss * 1024, printed.read()


def least(rounds, *cases):
    """The least seconds of each case, its words and lines, all in turns, so that each sees the same machine."""
    seconds = [1e9] * len(cases)
    for _ in range(rounds):
        seconds = [min(before, run(*case)[0]) for before, case in zip(seconds, cases)]
    return seconds


def acts_in(printed):
    """How many acts a transcript has: the starts, and the steps of the calls that were answered."""
    lines = [line.split() for line in printed.splitlines()]
    return sum("call" in line for line in lines) + sum(int(line[-1]) for line in lines if "return" in line)


def beside_a_world(rounds):
    """Acts on a world, and by the last of a broker's eight slots, the time of the lines before them taken off."""
    for kind in ("durable", "log"):
        for clients in (1, 4):
            world = [f"queue {kind} {clients} 4096"]
            broker = [f"broker {clients} 4096", *(f"create {name} {kind}" for name in NAMES)]
            here, there = world + calls(kind, clients, ""), broker + calls(kind, clients, f"{NAMES[-1]}: ")
            cases = [(["run"], world), (["run"], here), (["broker", "run"], broker), (["broker", "run"], there)]
            none, whole, empty, full = least(rounds, *cases)
            count = acts_in(run(*cases[1])[2])
            if acts_in(run(*cases[3])[2]) != count:
                sys.exit("the acts of a slot are others")
            world, slot = whole - none, full - empty
            said = f"{kind}, {clients} client{'s' * (clients > 1)}"
            print(f"{said}: {count / world / 1e6:.2f} million acts a second on a world, {count / slot / 1e6:.2f} by slot:"
                  f" ratio {world / slot:.2f}")


def crashing():
    """Crashes, the first of them in the middle of a call, each with its recovery."""
    begun = ["q: enq 0 07000000", f"q: step 0 {STEPS}"]
    return [line for at in range(CRASHES) for line in [*(begun if at < CALLS else []), "crash", "recover"]]


def crashes(rounds):
    """A crash and its recovery, in a broker with few records and in one with many."""
    cases = []
    for records in (64, 4096):
        first = [f"broker 1 {records}", "create q durable"]
        cases += [(["broker", "run"], first), (["broker", "run"], first + crashing())]
    few, more, many, most = least(rounds, *cases)
    few, many = (more - few) / CRASHES * 1e9, (most - many) / CRASHES * 1e9
    print(f"a crash and recovery: {few:.0f} ns with 64 records, {many:.0f} ns with 4,096: ratio {many / few:.2f}")


def resident():
    """The memory of a large broker; that of a small one is what the program itself takes."""
    for name in ("MALLOC_TRIM_THRESHOLD_", "MALLOC_MMAP_THRESHOLD_", "MALLOC_TOP_PAD_"):
        os.environ.pop(name, None)
    small, large = (run(["broker", "run"], [line])[1] for line in ("broker 1 64", "broker 16 4096"))
    size = 8 * (34 + 8 * (9 + 2 * 16 + 11 * 16 * 4096))
    print(f"a broker of 16 clients with 4,096 records: {(large - small) / 1e6:.1f} MB resident for {size / 1e6:.1f} MB "
          f"of words: ratio {(large - small) / size:.2f}")


if __name__ == "__main__":
    beside_a_world(int(sys.argv[2]))
    crashes(int(sys.argv[2]))
    resident()
