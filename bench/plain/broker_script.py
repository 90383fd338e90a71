"""Scripts of a whole broker and their transcripts, by docs/SCRIPT.md, on the plain machine of a broker."""

import hashlib
import re

import script
from broker import NAME
from broker_machine import BrokerMachine, booted
from form import FORM
from image import Broken, image_of
from script import number_of, numbers_of, printed, read

CREATION_STEPS = 12
KINDS = {b"durable": "durable", b"log": "log"}
# Lines of a queue's script that are about the whole memory, or the act before, and those on one queue, by the numbers
# of each kind.
WHOLE = {b"evict": "W", b"crash": "", b"again": ""}
CODES = {"BadCount": "3 BadCount"}
# What a client asks the session for, by its numbers before the call.
ASKS = {b"request": "CN", b"plain": "C", b"begin": "CN"}
CALLS = {b"enq": "V", b"deq": ""}


def name_in(word):
    text = word.decode("latin-1")
    return text if NAME.fullmatch(text) else None


def broker_in(words):
    return numbers_of(words[1:], "TK") if words[0] == b"broker" else None


def creation_in(words):
    """`create NAME KIND`, `create NAME KIND M`."""
    if len(words) not in (3, 4) or name_in(words[1]) is None or words[2] not in KINDS:
        return None
    most = CREATION_STEPS if len(words) == 3 else number_of(words[3], *script.LIMITS["M"])
    return most and ("create", name_in(words[1]), KINDS[words[2]], most)


def steps_in(words, what, most):
    """A line that goes on by a step, or to the end, or by at most so many."""
    if len(words) > 1:
        numbers = numbers_of(words[1:], "M")
        return numbers and (what, numbers[0])
    return what, most


def ask_in(name, words):
    """`request C N CALL`, `plain C CALL`, `begin C N CALL`, where CALL is `enq V` or `deq`."""
    shape = ASKS[words[0]]
    at = 1 + len(shape)
    if len(words) <= at or words[at] not in CALLS:
        return None
    numbers = numbers_of(words[1:at] + words[at + 1:], shape + CALLS[words[at]])
    if numbers is None:
        return None
    number = numbers[1] if shape == "CN" else None
    value = numbers[-1] if words[at] == b"enq" else None
    return "ask", name, words[0].decode(), numbers[0], number, value


def on_queue(words):
    """A line on one queue: of which kinds it is, and what it says."""
    name = name_in(words[0][:-1])
    if name is None or len(words) < 2:
        return None
    if words[1] == b"told":
        numbers = numbers_of(words[2:], "C")
        return numbers and ("told", name, numbers[0])
    if words[1] in ASKS:
        return ask_in(name, words[1:])
    if words[1] not in script.SHAPES or words[1] in WHOLE:
        return None
    line = b" ".join(words[1:]).decode("latin-1")
    shapes = zip(("durable", "log"), script.SHAPES[words[1]])
    read = {kind: numbers_of(words[2:], shape) for kind, shape in shapes}
    read = {kind: numbers for kind, numbers in read.items() if numbers is not None}
    return ("on", name, line, words[1].decode(), read) if read else None


def statement_in(words):
    """What a line says after the first one, or None."""
    if words[0].endswith(b":"):
        return on_queue(words)
    if words[0] == b"create":
        return creation_in(words)
    if words[0] == b"create-step":
        return steps_in(words, "create-step", 1)
    if words[0] == b"recover":
        return steps_in(words, "recover", -1)
    if words[0] in (b"find", b"renew"):
        is_named = len(words) == 2 and name_in(words[1]) is not None
        return (words[0].decode(), name_in(words[1])) if is_named else None
    if words[0] == b"set":
        numbers = numbers_of(words[1:], "WW")
        return numbers and ("set", *numbers)
    if words[0] in WHOLE:
        numbers = numbers_of(words[1:], WHOLE[words[0]])
        return None if numbers is None else (words[0].decode(), *numbers)
    plain = (b"list", b"rotate", b"image", b"boot")
    return (words[0].decode(),) if len(words) == 1 and words[0] in plain else None


def may_follow(before, statement):
    """Whether a line on a queue that lines before it create is on some kind of queue that they create."""
    if statement[0] != "on":
        return True
    kinds = {each[2] for each in before if each[0] == "create" and each[1] == statement[1]}
    return not kinds or bool(kinds & set(statement[4]))


def next_statement(_, before, words):
    """What a line says behind these, or None."""
    statement = statement_in(words)
    return statement if statement is not None and may_follow(before, statement) else None


def parsed(text):
    """The broker and the statements, or the number of the first bad line."""
    return read(text, broker_in, next_statement)


def verdict_of(told):
    """The number and the reply that a client is told, None as the reply of one that was not taken; or nothing."""
    if told == "none":
        return None
    number, reply = told.split(" ", 1)
    return int(number), None if reply == "nottaken" else reply


def by_number(last, number):
    """What a number comes to by the last one that is known: its reply, a refusal, or None where it runs."""
    if number == 0:
        return None, "20 Old"
    if last is None:
        return None, None if number == 1 else "19 Gap"
    known, reply = last
    if number == known:
        return reply, None
    if number < known:
        return None, "20 Old"
    return None, None if reply is not None and number == known + 1 else "19 Gap"


class Player:
    """A broker that follows a script, the last number of each client that is known, by its slot, with its reply, and the
    words of the image that is remembered."""

    def __init__(self, clients, records):
        self.machine = BrokerMachine(clients, records)
        self.last = {}
        # Of each client of a durable queue, by its slot: what its last dequeue since recovery got.
        self.rows = {}
        self.remembered = []

    def play(self, statement):
        """What a line prints."""
        return getattr(self, statement[0].replace("-", "_"))(*statement[1:])

    def create(self, name, kind, most):
        refusal = self.machine.create(name, kind)
        return [f"refused {refusal}"] if refusal else self.go_on(most)

    def create_step(self, most):
        if self.machine.recovery:
            return ["refused 12 NotReady"]
        return self.go_on(most) if self.machine.creation else ["refused 14 Idle"]

    def go_on(self, most):
        for _ in range(most):
            done = self.machine.create_step()
            if done:
                name, slot, steps = done
                return [f"created {name} slot {slot} steps {steps}"]
        return ["creating"]

    def placed(self, name):
        """The queue of this name, or why there is none."""
        if self.machine.recovery:
            return None, "12 NotReady"
        slot = self.machine.find(name)
        return (slot, None) if slot is not None else (None, "21 NoQueue")

    def find(self, name):
        slot, refusal = self.placed(name)
        return [f"refused {refusal}" if refusal else f"found {name} slot {slot}"]

    def list(self):
        if self.machine.recovery:
            return ["refused 12 NotReady"]
        queues = [(slot, queue) for slot, queue in enumerate(self.machine.queues) if queue]
        return [f"queues {len(queues)}"] + [f"slot {slot} {queue[0]} {queue[1].kind}" for slot, queue in queues]

    def on(self, name, line, word, read):
        slot, refusal = self.placed(name)
        if refusal:
            return [f"{name}: refused {refusal}"]
        machine = self.machine.queues[slot][1]
        if machine.kind not in read:
            return [f"{name}: refused 22 WrongKind"]
        numbers = read[machine.kind]
        call = machine.calls[numbers[0]] if numbers and numbers[0] < len(machine.calls) else None
        lines = script.play(machine, line, word, numbers)
        if word in ("step", "end") and call and lines:
            self.keep_reply(slot, machine, call[0])
        return [f"{name}: {said}" for said in lines]

    def ask(self, name, what, client, number, value):
        """What the session answers."""
        slot, refusal = self.placed(name)
        machine = None if refusal else self.machine.queues[slot][1]
        reply, refusal = (None, refusal) if refusal else self.asked(slot, machine, client, number)
        if reply is None and refusal is None:
            refusal = machine.start(client, number, value)
            if refusal is None and what == "begin":
                said = "deq" if value is None else f"enq {FORM.text(value)}"
                return [f"{name}: call begin {client} {number} {said}"]
            reply = None if refusal else self.served(slot, machine, client, number)
        asked = str(client) if number is None else f"{client} {number}"
        return [f"{name}: refused {refusal}" if refusal else f"{name}: reply {asked} {reply}"]

    def asked(self, slot, machine, client, number):
        """The kept reply, or the refusal, or neither, where it runs."""
        if client >= len(machine.calls):
            return None, "13 NoClient"
        if machine.kind != ("durable" if number is None else "log"):
            return None, "22 WrongKind"
        if machine.calls[client]:
            return None, "10 Busy"
        return (None, None) if number is None else by_number(self.last.get((slot, client)), number)

    def served(self, slot, machine, client, number):
        """The call goes on to its end."""
        call = None
        while not call:
            call = machine.step(client)
        self.keep_reply(slot, machine, call)
        return call.reply

    def keep_reply(self, slot, machine, call):
        if machine.kind == "log":
            self.last[slot, call.client] = (call.number, call.reply)
        elif call.value is None:
            self.rows[slot, call.client] = call.reply

    def told(self, name, client):
        slot, refusal = self.placed(name)
        if refusal:
            return [f"{name}: refused {refusal}"]
        told = self.machine.queues[slot][2]
        return [f"{name}: told {client} {told[client]}" if client < len(told) else f"{name}: refused 13 NoClient"]

    def evict(self, word):
        if word >= self.machine.size:
            return ["refused 1 NoWord"]
        return [f"evict {word} " + ("kept" if self.machine.keep(word) else "same")]

    def crash(self):
        self.machine.crash()
        return ["crash"]

    def again(self):
        # The plain machine is refused no memory.
        return []

    def recover(self, most):
        if not self.machine.recovery:
            return ["refused 15 AlreadyReady"]
        while most != 0:
            steps = self.machine.recover_step()
            if steps:
                self.hear()
                return [f"ready steps {steps}", *self.tellings()]
            most -= 1
        return ["recovering"]

    def hear(self):
        """What each client of a log queue is told is its last number."""
        self.rows = {}
        self.last = {
            (slot, client): verdict_of(said)
            for slot, queue in enumerate(self.machine.queues) if queue and queue[1].kind == "log"
            for client, said in enumerate(queue[2])
        }

    def tellings(self):
        return [
            f"{queue[0]}: told {client} {said}"
            for queue in self.machine.queues if queue for client, said in enumerate(queue[2])
        ]

    def rotate(self):
        if self.machine.recovery:
            return ["refused 12 NotReady"]
        if self.machine.is_busy():
            return ["refused 10 Busy"]
        self.machine.rotate()
        for slot, queue in enumerate(self.machine.queues):
            if queue:
                queue[2] = [self.kept_told(slot, queue, client) for client in range(len(queue[2]))]
        return ["rotated"]

    def kept_told(self, slot, queue, client):
        """What the kept words tell a client that has no call under way: a history begins with that."""
        if queue[1].kind == "durable":
            return self.rows.get((slot, client), queue[2][client])
        number, reply = self.last.get((slot, client)) or (None, None)
        return "none" if number is None else f"{number} {reply or 'nottaken'}"

    def renew(self, name):
        slot, refusal = self.placed(name)
        if refusal or self.machine.is_busy():
            return [f"refused {refusal or '10 Busy'}"]
        renewed = self.machine.renewed(slot)
        if renewed is None:
            return ["refused 11 NoRoom"]
        self.machine = renewed
        return ["renewed"]

    def image(self):
        self.remembered = self.machine.words()
        data = image_of(self.remembered)
        return [f"image bytes {len(data)} digest {hashlib.sha256(data).hexdigest()[:8]}"]

    def set(self, word, value):
        if word >= len(self.remembered):
            return ["refused 1 NoWord"]
        was, self.remembered[word] = self.remembered[word], value
        return [f"set {word} was {was}"]

    def boot(self):
        try:
            self.machine = booted(list(self.remembered))
        except Broken as broken:
            rule = str(broken)
            return [f"refused {CODES.get(rule, f'29 Damaged {rule}')}"]
        self.last, self.rows = {}, {}
        return ["booted"]


def check_orders(text):
    """The first order in a transcript that does not explain what came before it on its queue, or None. Of a queue whose
    history began anew, by a rotation, a renewal or a boot, only the calls before that are looked at, and of one whose
    session was asked none: a reply does not say to which call."""
    lines = re.split(rb"(?m)^(?:rotated|renewed|booted)\n", text)[0].splitlines()
    names = {line.split(b":")[0] for line in lines if re.match(rb"[a-z0-9_-]+: ", line)}
    for name in sorted(names):
        own = [line.removeprefix(name + b": ") for line in lines if line == b"crash" or line.startswith(name + b": ")]
        if any(re.match(rb"reply |call begin ", line) for line in own):
            continue
        broken = script.check_orders(b"\n".join(own))
        if broken:
            return f"{name.decode()}: {broken}"
    return None


def transcript(text):
    """Standard output, standard error and the status of `pqx broker run`."""

    def lines(broker, statements):
        player = Player(*broker)
        yield f"size {player.machine.size}"
        for statement in statements:
            yield from player.play(statement)

    return printed(parsed(text), lines)


if __name__ == "__main__":
    import sys
    output, said, status = transcript(sys.stdin.buffer.read())
    sys.stdout.buffer.write(output)
    sys.stderr.buffer.write(said)
    sys.exit(status)
