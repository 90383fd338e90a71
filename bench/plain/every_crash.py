"""every_crash.py PQX: scripts of a whole broker that a crash cuts off at each step, and again at each step of what
follows, are followed by PQX and by the plain machine. Prints how many scripts of each family there are; at the first
difference the script, and status 1."""

import subprocess
import sys
from collections import Counter

import cut_off_numbers
from broker_script import CREATION_STEPS, transcript

LONG = "orders-2_eu-west"
# The steps of a creation after which the gate is stored, and after which it is asked for, too.
GATE_STORED, GATE_ASKED = 10, 11
# The steps of a lone dequeue of a log queue after which its claim is asked for, and kept.
CLAIM_ASKED, CLAIM_KEPT = 22, 23


def creation(name, kind, steps):
    """A creation that has made so many steps; one that made none was not begun."""
    return [f"create {name} {kind} {steps}"] if steps else []


def going_on(what, steps):
    return [f"{what} {steps}"] if steps else []


def serving(name, number):
    said = f"{number} " if number else ""
    return [f"{name}: enq 0 {said}07", f"{name}: end 0", "crash", "recover", f"{name}: content", f"{name}: order"]


def cut_off_creations():
    """A creation makes some steps, the environment keeps a set of its slot's words, it makes more, and all stops."""
    for kind in ("durable", "log"):
        for steps in range(1, CREATION_STEPS + 1):
            for kept in range(16):
                for more in range(CREATION_STEPS - steps + 1):
                    lines = ["broker 1 3", *creation(LONG, kind, steps)]
                    lines += [f"evict {2 + word}" for word in range(4) if kept >> word & 1]
                    lines += [*going_on("create-step", more), "crash", "recover", "list", f"find {LONG}", "create-step"]
                    is_there = steps + more == CREATION_STEPS or steps >= GATE_STORED and kept & 8 != 0
                    number = 1 if kind == "log" else None
                    if is_there:
                        lines += [f"create {LONG} {kind}", "create b log", *serving(LONG, number)]
                    else:
                        lines += [f"create b {kind}", "list", *serving("b", number)]
                    yield lines, [f"found {LONG} slot 0" if is_there else "refused 21 NoQueue"]


def two_creations():
    """Two creations, each of which is cut off by a crash: each takes the lowest slot that is free."""
    for first in range(CREATION_STEPS + 1):
        for second in range(CREATION_STEPS + 1):
            lines = ["broker 1 1", *creation("first", "durable", first), "crash", "recover"]
            lines += [*creation("second", "log", second), "crash", "recover", "list"]
            there = (first == CREATION_STEPS) + (second == CREATION_STEPS)
            slot = int(first == CREATION_STEPS)
            wanted = [f"slot {slot} second log"] if second == CREATION_STEPS else []
            yield lines, [f"queues {there}", *wanted]


def claimed(steps):
    """A durable queue through which three messages went, and a log queue whose dequeue is cut off."""
    lines = ["broker 1 6", "create d durable", "create l log"]
    for value in (1, 2, 3):
        lines += [f"d: enq 0 {value:02x}", "d: end 0"]
    lines += ["d: deq 0", "d: end 0"] * 3
    return [*lines, "l: enq 0 1 09", "l: end 0", "l: deq 0 2", f"l: step 0 {steps}", "crash"]


def recoveries(lines):
    """In how many steps a broker is ready after these lines."""
    printed = transcript("\n".join([*lines, "recover"]).encode())[0].decode().splitlines()
    return int(next(line for line in reversed(printed) if line.startswith("ready")).split()[-1])


def crashes_in_recovery():
    """Recovery is cut off after each of its steps, and again after every third of the next ones."""
    for steps in (CLAIM_ASKED, CLAIM_KEPT):
        before = claimed(steps)
        told = "l: told 0 2 got 09" if steps == CLAIM_KEPT else "l: told 0 2 nottaken"
        content = "l: content -" if steps == CLAIM_KEPT else "l: content 09"
        count = recoveries(before)
        for first in range(count):
            for second in range(0, count, 3):
                lines = [*before, *going_on("recover", first), "crash", *going_on("recover", second), "crash"]
                lines += ["recover", "list", "d: content", "l: content", "l: order", "crash", "recover"]
                yield lines, ["d: told 0 got 03", told, "d: content -", content]


def crashes_where_a_queue_is_found():
    """The recovery that is the first to find a queue is cut off after each of its steps, and of the next ones."""
    before = ["broker 1 2", "create d durable", *creation("found", "log", GATE_ASKED), "evict 9", "crash"]
    count = recoveries(before)
    for first in range(count):
        for second in range(count):
            lines = [*before, *going_on("recover", first), "crash", *going_on("recover", second), "crash", "recover"]
            lines += ["list", "create-step", "found: enq 0 1 05", "found: end 0", "create next durable", "crash"]
            lines += ["recover", "found: content", "found: order", "list"]
            yield lines, ["queues 2", "slot 1 found log", "found: told 0 1 done", "found: content 05", "queues 3"]


def moments(kind, number):
    """Moments of a call, of a creation and of a recovery."""
    ready = ["broker 1 3", f"create a {kind}"]
    yield from ([*ready, f"a: enq 0 {number}05", *going_on("a: step 0", steps)] for steps in range(38))
    yield from ([*ready, *creation("b", "log", steps)] for steps in range(CREATION_STEPS + 1))
    yield from ([*ready, "create b log", "crash", *going_on("recover", steps)] for steps in range(32))


def images():
    """A broker that begins on the image of any moment is what a crash leaves at it, and recovers as that does."""
    after = ["recover", "list", "a: content", "image"]
    for kind, number in (("durable", ""), ("log", "1 ")):
        for moment in moments(kind, number):
            crashed = transcript("\n".join([*moment, "crash", *after]).encode())[0].decode().splitlines()
            found = crashed[len(crashed) - 1 - crashed[::-1].index("crash") + 1:]
            yield [*moment, "image", "boot", *after], found


FAMILIES = [
    ("creations", cut_off_creations), ("two creations", two_creations), ("recoveries", crashes_in_recovery),
    ("recoveries that find a queue", crashes_where_a_queue_is_found), ("images", images),
    *cut_off_numbers.FAMILIES,
]


def difference(pqx, lines, wanted):
    """What PQX, or the plain machine, says of a script that is not wanted, or None."""
    text = "".join(line + "\n" for line in lines).encode()
    output, said, status = transcript(text)
    printed = output.decode().splitlines()
    for line in Counter(wanted) - Counter(printed):
        return f"the plain machine prints {line!r} less often than is wanted"
    done = subprocess.run([pqx, "broker", "run"], input=text, capture_output=True, timeout=60)
    if (done.stdout, done.stderr, done.returncode) != (output, said, status):
        return f"plain {output}, program {done.stdout} {done.stderr} {done.returncode}"
    return None


def main(pqx):
    for name, family in FAMILIES:
        count = 0
        for lines, wanted in family():
            said = difference(pqx, lines, wanted)
            if said:
                print(f"{name} differ: {said}\n" + "\n".join(lines))
                return 1
            count += 1
        print(f"{name} {count}")
    return 0


if __name__ == "__main__":
    sys.exit(main(*sys.argv[1:]))
