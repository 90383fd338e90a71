"""One queue step by step over a plain memory, by docs/TABLES.md and docs/SCRIPT.md. A call and a recovery are
generators: each `yield` is one access to the memory, and what comes back is what the access found. A client makes them
through the port of its number, and recovery through one of its own."""

from form import FORM
from layout import HEAD, TAIL, Layout
from recovery import recovery
from steps import keeping, loading, storing

RECOVERY_PORT = 16
EMPTY = {"durable": 1, "log": 2}


class Call:
    def __init__(self, client, number, value, record):
        self.client = client
        self.number = number
        # None of a dequeue.
        self.value = value
        self.record = record
        self.steps = 0
        self.reply = None


class Machine(Layout):
    def __init__(self, kind, clients, records, form=FORM):
        super().__init__(kind, clients, records, form)
        self.cached = [0] * self.size
        self.kept = [0] * self.size
        # Of each port that has a request: the word.
        self.requests = {}
        # Of each client: its call under way with the access that comes next, and the last number that it may not use.
        self.calls = [None] * clients
        self.floors = [0] * clients
        # Of each record: the call that took it last.
        self.takers = {}
        # Effects, as they came: [call, reply, whether it counts].
        self.effects = []
        self.recovery = None

    # The memory.

    def access(self, port, what, word=None, value=None, new=None):
        """An access through a port. A fence names no word: it keeps the one that the port's last flush asked for."""
        if what == "fence":
            asked = self.requests.pop(port, None)
            return asked is not None and self.keep(asked)
        found = self.cached[word]
        if what == "store":
            self.cached[word] = value
        elif what == "swap" and found == value:
            self.cached[word] = new
        elif what == "flush":
            self.requests[port] = word
        return found

    def keep(self, word):
        """The kept value becomes the cached one; whether it changed. By this calls take effect. Requests stay."""
        value = self.cached[word]
        if self.kept[word] == value:
            return False
        self.kept[word] = value
        if word >= self.answers:
            self.settle(word, value)
        elif word >= self.begin and value:
            part, number = self.place(word)
            if part == "next":
                self.effects.append([self.takers[value], "done", True])
            elif part == "mark":
                self.effects.append([self.takers[value], f"got {self.text_at(self.cached, number)}", True])
        return True

    def text_at(self, words, number):
        """The message of a node, as a transcript has it."""
        return self.form.text(self.form.message_of([words[word] for word in self.message(number)]))

    def settle(self, word, value):
        """An empty answer that is kept: what the call found counts, where it stands."""
        for effect in self.effects:
            if not effect[2] and value == EMPTY[self.kind] and word == self.empty_word(effect[0].record):
                effect[2] = True

    def empty_word(self, record):
        return self.entry(record) if self.kind == "durable" else self.entry(record, "status")

    def look(self, call, is_empty):
        """A dequeue looks whether the queue is empty, and forgets what it found before."""
        self.effects = [effect for effect in self.effects if effect[0] is not call or effect[2]]
        if is_empty:
            self.effects.append([call, "empty", False])

    # Calls.

    def prepare(self, call):
        record, client = call.record, call.client
        words = [(self.bump(client), (record - 1) % self.records + 1)]
        if self.kind == "log":
            kind = 2 if call.value is None else 1
            words += [(self.entry(record, "number"), call.number), (self.entry(record, "kind"), kind)]
        if call.value is not None:
            if self.kind == "log":
                words += [(self.entry(record, "node"), record)]
            words += zip(self.message(record), self.form.words_of(call.value))
            if self.kind == "log":
                words += [(self.node(record, "insert"), record)]
        if self.kind == "log" or call.value is None:
            words += [(self.announcement(client), record)]
        for word, value in words:
            yield from storing(word, value)

    def enqueue(self, call):
        yield from self.prepare(call)
        while True:
            last = yield "load", TAIL
            link = self.node(last, "next")
            following = yield "load", link
            if (yield "load", TAIL) != last:
                continue
            if following != 0:
                yield from keeping(link)
                yield "swap", TAIL, last, following
            elif (yield "swap", link, 0, call.record) == 0:
                yield from keeping(link)
                yield "swap", TAIL, last, call.record
                return "done"

    def dequeue(self, call):
        yield from self.prepare(call)
        while True:
            first = yield "load", HEAD
            last = yield "load", TAIL
            following = yield "load", self.node(first, "next")
            self.look(call, following == 0)
            if (yield "load", HEAD) != first:
                continue
            if first == last and following == 0:
                yield from storing(self.empty_word(call.record), EMPTY[self.kind])
                return "empty"
            if first == last:
                yield from keeping(self.node(last, "next"))
                yield "swap", TAIL, last, following
                continue
            value = self.form.message_of((yield from loading(self.message(following))))
            mark = self.node(following, "mark")
            found = yield "swap", mark, 0, call.record
            winner = found or call.record
            yield from keeping(mark)
            yield from storing(*self.result(winner, following, value))
            yield "swap", HEAD, first, following
            if found == 0:
                return f"got {self.form.text(value)}"

    def result(self, winner, node, value):
        """The word that answers a claim, and what stands there then."""
        if self.kind == "log":
            return self.entry(winner, "node"), node
        return self.entry(winner), self.form.cell_of(node, value)

    def start(self, client, number, value):
        """Begins a call; or the refusal."""
        if client >= self.clients:
            return "13 NoClient"
        if self.recovery:
            return "12 NotReady"
        if self.calls[client]:
            return "10 Busy"
        if self.kind == "log" and (number == 0 or number > 2**40 or number <= self.floors[client]):
            return "9 StaleNumber"
        bump = self.cached[self.bump(client)]
        if bump == self.records:
            return "11 NoRoom"
        call = Call(client, number, value, 1 + client * self.records + bump)
        self.takers[call.record] = call
        steps = self.dequeue(call) if value is None else self.enqueue(call)
        self.calls[client] = [call, steps, next(steps)]
        return None

    def refusal_of_step(self, client):
        if client >= self.clients:
            return "13 NoClient"
        if self.recovery:
            return "12 NotReady"
        return None if self.calls[client] else "14 Idle"

    def step(self, client):
        """One step of a call. The call, once it is answered."""
        call, steps, access = self.calls[client]
        call.steps += 1
        try:
            self.calls[client][2] = steps.send(self.access(client, *access))
        except StopIteration as end:
            call.reply = end.value
            self.calls[client] = None
            if self.kind == "log":
                self.floors[client] = call.number
            return call
        return None

    def crash(self):
        self.cached = list(self.kept)
        self.requests = {}
        self.calls = [None] * self.clients
        self.effects = [effect for effect in self.effects if effect[2]]
        steps = recovery(self)
        self.recovery = [steps, next(steps), 0]

    # Recovery.

    def recover_step(self):
        """One step of recovery: what each client is told, once it is done."""
        steps, access, count = self.recovery
        try:
            self.recovery = [steps, steps.send(self.access(RECOVERY_PORT, *access)), count + 1]
        except StopIteration as end:
            self.recovery = None
            self.set_floors(end.value)
            return count + 1, end.value
        return None

    def set_floors(self, told):
        if self.kind == "log":
            for client, said in enumerate(told):
                number = 0 if said == "none" else int(said.split()[0])
                self.floors[client] = number - said.endswith("nottaken")

    # What it holds.

    def content(self):
        """The messages by the kept words, as a transcript has them."""
        texts, at = [], self.kept[self.node(0, "next")]
        while at:
            if not self.kept[self.node(at, "mark")]:
                texts.append(self.text_at(self.kept, at))
            at = self.kept[self.node(at, "next")]
        return texts

    def order(self):
        return [(call, reply) for call, reply, counts in self.effects if counts]
