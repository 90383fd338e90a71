"""Scripts and their transcripts, by docs/SCRIPT.md, on the plain machine; and whether an order explains a
transcript."""

import re

from form import FORM, NUMBER
from machine import Machine

LIMITS = {
    "T": (1, 16), "K": (1, 4096), "C": (0, 255), "N": (0, 2**64 - 1), "W": (0, 2**64 - 1), "M": (1, 1000),
}
# Of each word that begins a line: the arguments on a durable and on a log queue.
SHAPES = {
    b"enq": ("CV", "CNV"), b"deq": ("C", "CN"), b"step": ("CM", "CM"), b"end": ("C", "C"), b"evict": ("W", "W"),
    b"crash": ("", ""), b"content": ("", ""), b"order": ("", ""), b"again": ("", ""),
}


def number_of(word, least, greatest):
    return int(word) if NUMBER.fullmatch(word) and least <= int(word) <= greatest else None


def numbers_of(words, shape):
    """The numbers, and the message, that the words are, or None where they are none of this shape."""
    if len(words) != len(shape):
        return None
    found = [
        FORM.read(word) if kind == "V" else number_of(word, *LIMITS[kind]) for word, kind in zip(words, shape)
    ]
    return None if None in found else found


def queue_of(words):
    if len(words) != 4 or words[0] != b"queue" or words[1] not in (b"durable", b"log"):
        return None
    counts = numbers_of(words[2:], "TK")
    return counts and (words[1].decode(), *counts)


def act_of(words, is_log):
    """A word with its numbers, or None."""
    if words[0] == b"recover":
        numbers = numbers_of(words[1:], "M" if len(words) > 1 else "")
    elif words[0] in SHAPES:
        numbers = numbers_of(words[1:], SHAPES[words[0]][is_log])
    else:
        return None
    return None if numbers is None else (words[0].decode(), numbers)


def said(text):
    """The lines that say something, by their numbers and words. The first line past the 1,000th has no words."""
    lines = text.split(b"\n")
    if not lines[-1]:
        lines.pop()
    for at, line in enumerate(lines[:1000], 1):
        if line and not line.startswith(b"#"):
            yield at, line.split(b" ")
    if len(lines) > 1000:
        yield 1001, None


def read(text, first, then):
    """What `first` makes of the first line that says something, and what `then` makes of each later one, beside what was
    made of those before it. Or the number of the first line of which nothing is made."""
    head, rest = None, []
    for at, words in said(text):
        made = None if words is None else first(words) if head is None else then(head, rest, words)
        if made is None:
            return at
        if head is None:
            head = made
        else:
            rest.append(made)
    return head, rest


def act_in(queue, _, words):
    """A line of a script of this queue, with its act."""
    act = act_of(words, queue[0] == "log")
    return act and (b" ".join(words).decode(), *act)


def parsed(text):
    """The queue and the acts, or the number of the first bad line."""
    return read(text, queue_of, act_in)


def printed(script, lines):
    """Standard output, standard error and the status of a program that prints these lines of a script that was read."""
    if isinstance(script, int):
        return b"", f"pqx: line {script}: 28 BadLine\n".encode(), 1
    if script[0] is None:
        return b"", b"", 0
    return "".join(line + "\n" for line in lines(*script)).encode(), b"", 0


def call_line(call, reply):
    number = f" #{call.number}" if call.number is not None else ""
    return f"{call.client}{number} " + ("deq" if call.value is None else f"enq {FORM.text(call.value)}") + f" {reply}"


def returned(call):
    return [f"return {call.client} {call.reply} steps {call.steps}"]


def begin(machine, line, numbers):
    is_put = line.startswith("enq")
    value = numbers[-1] if is_put else None
    number = numbers[1] if machine.kind == "log" else None
    refusal = machine.start(numbers[0], number, value)
    return [f"refused {refusal}" if refusal else f"call {line}"]


def step(machine, client, most):
    refusal = machine.refusal_of_step(client)
    if refusal:
        return [f"refused {refusal}"]
    for _ in range(most):
        call = machine.step(client)
        if call:
            return returned(call)
    return []


def recover(machine, most):
    if not machine.recovery:
        return ["refused 15 AlreadyReady"]
    while most != 0:
        done = machine.recover_step()
        if done:
            return [f"ready steps {done[0]}"] + [f"told {client} {said}" for client, said in enumerate(done[1])]
        most -= 1
    return ["recovering"]


def evict(machine, word):
    if word >= len(machine.kept):
        return ["refused 1 NoWord"]
    return [f"evict {word} " + ("kept" if machine.keep(word) else "same")]


def play(machine, line, word, numbers):
    """What an act prints."""
    if word in ("enq", "deq"):
        return begin(machine, line, numbers)
    if word in ("step", "end"):
        return step(machine, numbers[0], numbers[1] if word == "step" else FORM.most_steps_alone)
    if word == "recover":
        return recover(machine, numbers[0] if numbers else -1)
    if word == "evict":
        return evict(machine, numbers[0])
    if word == "crash":
        machine.crash()
        return ["crash"]
    if word == "again":
        # The plain machine is refused no memory.
        return []
    if word == "content":
        return ["content " + (" ".join(machine.content()) or "-")]
    order = machine.order()
    return [f"order {len(order)}"] + [call_line(call, reply) for call, reply in order]


def transcript(text):
    """Standard output, standard error and the status of `pqx run`; and the machine at the end, where there is one."""
    script = parsed(text)
    machine = None if isinstance(script, int) or script[0] is None else Machine(*script[0])

    def lines(_, acts):
        yield f"size {len(machine.kept)}"
        for act in acts:
            yield from play(machine, *act)

    return printed(script, lines), machine


def history_of(lines, is_log):
    """The calls of a transcript up to a line: client, what was called, where it began and ended, and its reply."""
    calls, last = [], {}
    for at, line in enumerate(lines):
        words = line.split()
        if words[0] == "call":
            client = int(words[2])
            said = " ".join(words[1:2] + (words[4:5] if is_log else words[3:4])) if words[1] == "enq" else "deq"
            last[client] = [client, f"#{words[3]} {said}" if is_log else said, at, None, None]
            calls.append(last[client])
        elif words[0] == "return":
            last[int(words[1])][3:] = [at, " ".join(words[2:-2])]
        elif words[0] == "crash":
            for call in last.values():
                if call[3] is None:
                    call[3] = at
    return calls


def meant(free, client, said, reply):
    """The call that an entry of an order means, and whether it can mean no other one. One that was answered has to be
    in the order, one that was cut off may be."""
    same = [call for call in free if call[0] == client and call[1] == said and call[4] in (None, reply)]
    if not same:
        return None, False
    return next((call for call in same if call[4] is not None), same[0]), len(same) == 1


def unexplained(lines, order, is_log):
    """What a printed order does not explain of the transcript before it, or None."""
    queue, places, free = [], [], history_of(lines, is_log)
    for entry in order:
        client, rest = entry.split(" ", 1)
        said, reply = re.fullmatch(r"((?:#\d+ )?(?:enq \S+|deq)) (.*)", rest).groups()
        if said.endswith("deq"):
            wanted = f"got {queue.pop(0)}" if queue else "empty"
        else:
            queue.append(said.split()[-1])
            wanted = "done"
        if reply != wanted:
            return f"{entry}: the plain queue answers {wanted}"
        call, is_sure = meant(free, int(client), said, reply)
        if call is None:
            return f"{entry} is no call, or stands twice"
        free.remove(call)
        if is_sure and any(call[3] is not None and call[3] < other[2] for other in places):
            return f"{entry} had ended before one began that stands before it"
        if is_sure:
            places.append(call)
    left = [call for call in free if call[4] is not None]
    return f"{left[0]} was answered, and is not in the order" if left else None


def check_orders(text):
    """The first order of a transcript that does not explain what came before it, or None."""
    lines = text.decode().splitlines()
    is_log = any(re.match(r"\d+ #", line) or re.match(r"call deq \d+ \d", line) for line in lines)
    is_log = is_log or any(re.match(r"call enq \d+ \S+ \S", line) for line in lines)
    for at, line in enumerate(lines):
        if line.startswith("order "):
            count = int(line.split()[1])
            before = [each for each in lines[:at] if not re.match(r"\d", each)]
            broken = unexplained(before, lines[at + 1:at + 1 + count], is_log)
            if broken:
                return f"order on line {at + 1}: {broken}"
    return None


def test():
    """Each kind of wrong order is found, and a right one passes."""
    right = b"size 30\ncall enq 0 1\nreturn 0 done steps 10\ncall enq 1 2\nreturn 1 done steps 10\ncall deq 0\ncrash\n"
    assert check_orders(right + b"order 2\n0 enq 1 done\n1 enq 2 done\n") is None
    assert check_orders(right + b"order 3\n0 enq 1 done\n1 enq 2 done\n0 deq got 1\n") is None
    assert "plain queue" in check_orders(right + b"order 3\n0 enq 1 done\n1 enq 2 done\n0 deq got 2\n")
    assert "ended before" in check_orders(right + b"order 2\n1 enq 2 done\n0 enq 1 done\n")
    assert "not in the order" in check_orders(right + b"order 1\n0 enq 1 done\n")
    assert "twice" in check_orders(right + b"order 3\n0 enq 1 done\n0 enq 1 done\n1 enq 2 done\n")
    assert "no call" in check_orders(right + b"order 3\n0 enq 1 done\n1 enq 2 done\n1 deq got 1\n")
