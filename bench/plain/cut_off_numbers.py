"""Scripts of a whole broker in which a client's number is cut off by a crash, and is sent again if the client is told
that it was not taken; and scripts in which a queue goes on in fresh records. These are families of every_crash.py: each
gives the lines of a script, and what they are to print by these words alone."""

from broker_machine import BLOCKS
from broker_script import CREATION_STEPS, Player, parsed

# What client 0 does before, the call that is cut off, the reply that it is to get, and what is left then.
GETS = ["enq 0 1 09", "deq 0 2", "2 got 09", "-"]
PUTS = ["enq 0 1 09", "enq 0 2 05", "2 done", "09 05"]
PUTS_FIRST = [None, "enq 0 1 09", "1 done", "09"]
FINDS_NONE = ["deq 0 1", "deq 0 2", "2 empty", "-"]
# The steps of an enqueue and of a dequeue of a log queue that nobody disturbs.
LONE_PUT, LONE_TAKE = 37, 27
# A client that is overtaken takes some steps more.
OVERTAKEN = 2
NUMBERS = 60


def played(lines):
    """The player after these lines, and what they printed."""
    broker, statements = parsed("\n".join(lines).encode())
    player = Player(*broker)
    return player, [line for statement in statements for line in player.play(statement)]


def going_on(what, steps):
    return [f"{what} {steps}"] if steps else []


def under_way(story, steps):
    """A number that has made so many steps."""
    before, call = story[:2]
    lines = ["broker 1 3", "create a log"]
    if before:
        lines += [f"a: {before}", "a: end 0"]
    return [*lines, f"a: {call}", *going_on("a: step 0", steps)]


def steps_of(story):
    """How many steps its call makes."""
    return int(played([*under_way(story, 0), "a: end 0"])[1][-1].split()[-1])


def told_last(lines, client):
    """What a client was told last."""
    return next(line for line in reversed(played(lines)[1]) if line.startswith(f"a: told {client} "))


def sent_again(story, lines, is_known=True):
    """After these lines, which end in a recovery, the number is sent again unless it was taken. Then it took effect
    once, and neither it nor the one before runs again. `is_known`: whether the history has all calls."""
    before, call, reply, left = story
    is_taken = told_last(lines, 0) == f"a: told 0 {reply}"
    if not is_taken:
        lines = [*lines, f"a: {call}", "a: end 0"]
    lines = [*lines, f"a: {call}", *([f"a: {before}"] if before else []), "crash", "recover", "a: content", "a: order"]
    wanted = ["a: refused 9 StaleNumber"] * (2 if before else 1) + [f"a: told 0 {reply}", f"a: content {left}"]
    return lines, wanted + [f"a: order {reply.split()[0]}"] * is_known


def numbers_cut_off_twice():
    """A number is cut off after each of its steps, and again after each step of the recovery: by another crash, or by
    an image that is taken then and on which a broker begins."""
    for story in (GETS, PUTS):
        for steps in range(steps_of(story) + 1):
            crashed = [*under_way(story, steps), "crash"]
            count = int(played([*crashed, "recover"])[1][-2].split()[-1])
            for recovered in range(count):
                stopped = [*crashed, *going_on("recover", recovered)]
                yield sent_again(story, [*stopped, "crash", "recover"])
                yield sent_again(story, [*stopped, "image", "boot", "recover"], is_known=False)


def kept_and_cached(machine):
    """Of each word of a broker whether its kept value is the cached one."""
    same = [one == other for one, other in zip(machine.kept, machine.cached)]
    for queue in machine.queues:
        inner = [one == other for one, other in zip(queue[1].kept, queue[1].cached)] if queue else []
        same += inner + [True] * (machine.block - len(inner))
    return same


def numbers_whatever_is_kept():
    """A number is cut off after each of its steps, and the environment kept a word just before, each that differs in
    turn; or all that do not differ, and one that there is not."""
    for story, blocks in ((GETS, 8), (PUTS_FIRST, 1), (FINDS_NONE, 1)):
        for steps in range(steps_of(story) + 1):
            before = under_way(story, steps)
            machine = played(before)[0].machine
            words = range(BLOCKS + blocks * machine.block)
            same = kept_and_cached(machine)
            for word in words:
                if not same[word]:
                    lines, wanted = sent_again(story, [*before, f"evict {word}", "crash", "recover"])
                    yield lines, [*wanted, f"evict {word} kept"]
            evictions = [f"evict {word}" for word in words if same[word]]
            lines, wanted = sent_again(story, [*before, *evictions, f"evict {machine.size}", "crash", "recover"])
            yield lines, [*wanted, *(f"{line} same" for line in evictions), "refused 1 NoWord"]


def two_numbers_cut_off():
    """The same number of two clients is cut off, after each count of steps of the one and of the other: both get their
    message once."""
    begun = ["broker 2 4", "create a log", "a: enq 0 1 05", "a: end 0", "a: enq 1 1 06", "a: end 1"]
    for first in range(LONE_TAKE + OVERTAKEN + 1):
        for second in range(LONE_TAKE + OVERTAKEN + 1):
            lines = [*begun, "a: deq 0 2", *going_on("a: step 0", first), "a: deq 1 2", *going_on("a: step 1", second)]
            lines += ["crash", "recover"]
            for client in (0, 1):
                if " 2 got " not in told_last(lines, client):
                    lines = [*lines, f"a: deq {client} 2", f"a: end {client}"]
            lines += ["crash", "recover", "a: content", "a: order"]
            got = sorted(told_last(lines, client).split()[-1] for client in (0, 1))
            told = [f"a: told {client} 2 got {told_last(lines, client).split()[-1]}" for client in (0, 1)]
            yield lines, [*told, "a: content -", "a: order 4", *(["both are the same"] if got != ["05", "06"] else [])]


def moments(kind, number):
    """Moments of a call, of a creation beside it, and of a recovery."""
    ready = ["broker 1 3", f"create a {kind}"]
    yield from ([*ready, f"a: enq 0 {number}05", *going_on("a: step 0", steps)] for steps in range(38))
    put = [*ready, f"a: enq 0 {number}05", "a: end 0"]
    take = f"a: deq 0 {number.replace('1', '2')}".strip()
    yield from ([*put, take, *going_on("a: step 0", steps)] for steps in range(28))
    yield from ([*put, f"create b log {steps}"] for steps in range(1, CREATION_STEPS + 1))


def renewals():
    """A queue that stops at any moment goes on in fresh records: it holds what it held, and each client is told what it
    was told."""
    for kind, number in (("durable", ""), ("log", "1 ")):
        for moment in moments(kind, number):
            recovered = [*moment, "crash", "recover", "a: content"]
            said = played(recovered)[1]
            said = [line for line in said[said.index("crash") + 1:] if ": " in line]
            yield [*recovered, "renew a", "recover", "a: content"], [*said, *said, "renewed"]


def numbers_in_fresh_records():
    """A client puts each odd number in, and takes it out by the next, sixty numbers on four records. Where they are
    used up the queue is renewed, and everything stops once more within the recovery, after each count of its steps."""
    ready = ["broker 2 4", "create a log"]
    count = int(played([*ready, "crash", "recover"])[1][-3].split()[-1])
    for recovered in range(count):
        lines, wanted, used = list(ready), [], 0
        for number in range(1, NUMBERS + 1):
            call = f"a: enq 0 {number} {number:02x}" if number % 2 else f"a: deq 0 {number}"
            if used == 4:
                lines += [call, "renew a", *going_on("recover", recovered), "crash", "recover"]
                wanted += ["a: refused 11 NoRoom", "renewed"]
                used = 2 + (number % 2 == 0)
            lines += [call, "a: end 0", call]
            reply = f"done steps {LONE_PUT}" if number % 2 else f"got {number - 1:02x} steps {LONE_TAKE}"
            wanted += [f"a: return 0 {reply}", "a: refused 9 StaleNumber"]
            used += 1
        yield [*lines, "a: content"], [*wanted, "a: content -"]


FAMILIES = [
    ("numbers cut off twice", numbers_cut_off_twice), ("numbers whatever is kept", numbers_whatever_is_kept),
    ("two numbers cut off", two_numbers_cut_off), ("renewals", renewals),
    ("numbers in fresh records", numbers_in_fresh_records),
]
