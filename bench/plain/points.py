"""What `pqx points` and `pqx alone` print of a script, by docs/SCRIPT.md, on the plain machine."""

from form import FORM
from machine import Machine
from script import parsed, printed


class Pcg32:
    """The generator of O'Neill (2014) with 64 bits of state, as `rand_pcg` begins it."""

    def __init__(self, state, stream):
        self.increment = (2 * stream + 1) % 2**64
        self.state = (state + self.increment) % 2**64
        self.advance()

    def advance(self):
        self.state = (self.state * 6364136223846793005 + self.increment) % 2**64

    def draw(self):
        state, turns = self.state, self.state >> 59
        self.advance()
        mixed = ((state >> 18 ^ state) >> 27) % 2**32
        return (mixed >> turns | mixed << (32 - turns)) % 2**32


def attempt(machine, act):
    """Makes an act, or refuses it. Whether it was made."""
    what, numbers = act[0], act[1:]
    if what == "start":
        return machine.start(*numbers) is None
    if what == "step":
        if machine.refusal_of_step(numbers[0]):
            return False
        machine.step(numbers[0])
    elif what == "evict":
        if numbers[0] >= len(machine.kept):
            return False
        machine.keep(numbers[0])
    elif what == "crash":
        machine.crash()
    elif machine.recovery is None:
        return False
    else:
        machine.recover_step()
    return True


def attempts_of(kind, word, numbers):
    """The acts that a line attempts."""
    if word in ("enq", "deq"):
        return [("start", numbers[0], numbers[1] if kind == "log" else None, numbers[-1] if word == "enq" else None)]
    if word in ("step", "end"):
        return [("step", numbers[0])] * (numbers[1] if word == "step" else FORM.most_steps_alone)
    if word == "recover":
        return [("recover",)] * (numbers[0] if numbers else 100000)
    return [(word, *numbers)] if word in ("evict", "crash") else []


def accepted(queue, acts):
    """The script's acts that are made, one after another."""
    machine, made = Machine(*queue), []
    for _, word, numbers in acts:
        for act in attempts_of(queue[0], word, numbers):
            if not attempt(machine, act):
                break
            made.append(act)
    return made


def after(queue, acts):
    machine = Machine(*queue)
    for act in acts:
        attempt(machine, act)
    return machine


def given(command, option, default):
    """The number of an option, or the default where it is not given."""
    return int(command[command.index(option) + 1]) if option in command else default


def evicted(size, at, command):
    """The words that the environment keeps just before a crash at this point."""
    if "drawn" in command:
        draws = Pcg32(given(command, "--draw", 1), at)
        return [word for word in range(size) if draws.draw() % 2 == 1]
    return range(size) if "all" in command else []


def point(machine, at, command):
    """A line on a crash that comes now."""
    for word in evicted(len(machine.kept), at, command):
        machine.keep(word)
    machine.crash()
    done = None
    while done is None:
        done = machine.recover_step()
    content = " ".join(machine.content()) or "-"
    return f"point {at}: recovery {done[0]}; told {', '.join(done[1])}; content {content}; ok"


def alone(machine, at, client):
    """A line on a client that goes on alone, and its steps."""
    call, steps = None, 0
    while call is None:
        call, steps = machine.step(client), steps + 1
    return f"point {at} client {client}: {call.reply} steps {steps}", steps


def stopped(queue, made):
    lines, most = [], 0
    for at in range(len(made) + 1):
        machine = after(queue, made[:at])
        for client in range(queue[1]):
            if machine.recovery is None and machine.calls[client]:
                line, steps = alone(after(queue, made[:at]), at, client)
                lines.append(line)
                most = max(most, steps)
    return [*lines, f"alone {len(lines)} most {most}"]


def crashed(queue, made, command):
    first = given(command, "--from", 0)
    wanted = range(len(made) + 1)[first:first + given(command, "--count", len(made) + 1)]
    lines = [point(after(queue, made[:at]), at, command) for at in wanted]
    return [*lines, f"points {len(lines)} bad 0"]


def report(text, command):
    """Standard output, standard error and the status of `alone`, `points`, `points --evict all`, or
    `points --evict drawn --draw N`, the last three with `--from P` and `--count N` or without."""

    def lines(queue, acts):
        made = accepted(queue, acts)
        return stopped(queue, made) if command[0] == "alone" else crashed(queue, made, command)

    return printed(parsed(text), lines)
