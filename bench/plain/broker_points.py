"""What `pqx broker points` prints of a script of a whole broker, by docs/SCRIPT.md, on the plain machine."""

from broker_script import Player, parsed
from form import FORM
from points import evicted
from script import printed

# No recovery has as many steps.
MANY = 1000000


def step_of(statement):
    """A line on a queue that makes one step, and how many there are of it at most: none where it shows something."""
    _, name, line, word, read = statement
    if word in ("step", "end"):
        numbers = next(iter(read.values()))
        one = [numbers[0], 1]
        times = numbers[1] if word == "step" else FORM.most_steps_alone
        return ("on", name, line, "step", {"durable": one, "log": one}), times
    return statement, 0 if word in ("content", "order") else 1


def asks_of(name, what, client, number, value):
    """How what is asked begins, and its steps."""
    one = {"durable": [client, 1], "log": [client, 1]}
    steps = [(("on", name, "", "step", one), FORM.most_steps_alone)] if what != "begin" else []
    if what == "plain":
        words = [client] if value is None else [client, value]
        word = "deq" if value is None else "enq"
        return [(("on", name, word, word, {"durable": words}), 1), *steps]
    return [(("ask", name, "begin", client, number, value), 1), *steps]


def attempts_of(statement):
    """A line's acts, each with how many there are of it at most."""
    what = statement[0]
    if what == "create":
        return [((*statement[:3], 0), 1), (("create-step", 1), statement[3])]
    if what == "create-step":
        return [((what, 1), statement[1])]
    if what == "recover":
        return [((what, 1), statement[1] if statement[1] >= 0 else MANY)]
    if what == "on":
        return [step_of(statement)]
    if what == "ask":
        return asks_of(*statement[1:])
    return [] if what in ("find", "list", "told", "again") else [(statement, 1)]


def is_refused(printed):
    return bool(printed) and "refused" in printed[0].split(" ")[:2]


def accepted(broker, statements):
    """The script's acts that are made, one after another; those of a line end at the first that is refused."""
    player, made = Player(*broker), []
    for statement in statements:
        made += accepted_of(player, statement)
    return made


def accepted_of(player, statement):
    made = []
    for act, times in attempts_of(statement):
        for _ in range(times):
            if is_refused(player.play(act)):
                return made
            made.append(act)
    return made


def point(broker, made, at, command):
    """A line on a crash that comes after the first acts, so many of them."""
    player = Player(*broker)
    for act in made[:at]:
        player.play(act)
    for word in evicted(player.machine.size, at, command):
        player.play(("evict", word))
    player.play(("crash",))
    ready = player.play(("recover", -1))[0]
    queues = "".join(
        f"; {name}: told {', '.join(told)}; content {' '.join(machine.content()) or '-'}"
        for name, machine, told in filter(None, player.machine.queues)
    )
    return f"point {at}: recovery {ready.split()[-1]}{queues}; ok"


def report(text, command):
    """Standard output, standard error and the status of `broker points`, with `--evict` and `--draw` or without."""

    def lines(broker, statements):
        made = accepted(broker, statements)
        for at in range(len(made) + 1):
            yield point(broker, made, at, command)
        yield f"points {len(made) + 1} bad 0"

    return printed(parsed(text), lines)


if __name__ == "__main__":
    import sys
    output, said, status = report(sys.stdin.buffer.read(), sys.argv[1:])
    sys.stdout.buffer.write(output)
    sys.stderr.buffer.write(said)
    sys.exit(status)
