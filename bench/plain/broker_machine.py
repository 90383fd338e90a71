"""A broker step by step over a plain memory, by docs/TABLES.md: its head and its directory are words of their own, and
each open slot has the plain machine of one queue. Creations and recovery are generators, as calls are."""

from broker import SLOTS
from form import FORM
from image import Broken, blocks_of
from layout import block_size
from machine import Machine
from renewal import renewed
from steps import storing

SLOT_WORDS = 4
BLOCKS = 34
KIND_WORDS = {"durable": 1, "log": 2}
KINDS = {1: "durable", 2: "log"}


def words_of_name(name):
    text = name.encode().ljust(16, b"\0")
    return [int.from_bytes(text[:8], "little"), int.from_bytes(text[8:], "little")]


def name_of(first, second):
    return (first.to_bytes(8, "little") + second.to_bytes(8, "little")).rstrip(b"\0").decode()


class BrokerMachine:
    def __init__(self, clients, records):
        self.clients = clients
        self.records = records
        self.block = block_size(clients, records)
        self.size = BLOCKS + SLOTS * self.block
        # The words before the blocks.
        self.cached = [clients, records] + [0] * (BLOCKS - 2)
        self.kept = list(self.cached)
        self.request = None
        # By slot: the name and the machine of its queue, and what each of its clients was told last; None where it is
        # closed.
        self.queues = [None] * SLOTS
        # The creation under way: its name, kind and slot, its steps, the access that comes next, and how many it made.
        self.creation = None
        # Recovery: its steps, and how many it made.
        self.recovery = None

    # The memory.

    def access(self, what, word=None, value=None):
        if what == "store":
            self.cached[word] = value
        elif what == "flush":
            self.request = word
        elif what == "fence":
            self.kept[self.request] = self.cached[self.request]
        return self.cached[word] if what == "load" else None

    def keep(self, word):
        """The environment keeps a word: whether its kept value changed."""
        if word < BLOCKS:
            changes = self.kept[word] != self.cached[word]
            self.kept[word] = self.cached[word]
            return changes
        slot, inner = divmod(word - BLOCKS, self.block)
        queue = self.queues[slot]
        return bool(queue) and inner < queue[1].size and queue[1].keep(inner)

    def words(self):
        """The kept words, from word 0 up."""
        words = list(self.kept)
        for queue in self.queues:
            inner = queue[1].kept if queue else []
            words += inner + [0] * (self.block - len(inner))
        return words

    # Queues.

    def find(self, name):
        """The slot of the queue of this name, or None."""
        return next((slot for slot, queue in enumerate(self.queues) if queue and queue[0] == name), None)

    def open(self, slot, name, kind):
        nothing = "none" if kind == "log" else "nocall"
        self.queues[slot] = [name, Machine(kind, self.clients, self.records), [nothing] * self.clients]

    def create(self, name, kind):
        """Begins a creation, or says why not."""
        if self.recovery:
            return "12 NotReady"
        if self.creation:
            return "10 Busy"
        if self.find(name) is not None:
            return "17 Exists"
        if None not in self.queues:
            return "18 DirectoryFull"
        slot = self.queues.index(None)
        steps = self.created(slot, name, kind)
        self.creation = [(name, kind, slot), steps, next(steps), 0]
        return None

    def created(self, slot, name, kind):
        at = 2 + SLOT_WORDS * slot
        for word, value in enumerate([*words_of_name(name), KIND_WORDS[kind], 1], at):
            yield from storing(word, value)

    def create_step(self):
        """A step of the creation under way: its name, its slot and its steps, where that opened the queue."""
        (name, kind, slot), steps, access, made = self.creation
        self.access(*access)
        try:
            self.creation = [(name, kind, slot), steps, next(steps), made + 1]
        except StopIteration:
            self.creation = None
            self.open(slot, name, kind)
            return name, slot, made + 1
        return None

    def is_busy(self):
        return bool(self.creation) or any(any(queue[1].calls) for queue in self.queues if queue)

    def rotate(self):
        """Each history begins anew."""
        for queue in self.queues:
            if queue:
                queue[1].effects = []

    def renewed(self, slot):
        """The machine that begins on these words, with the queue of a slot in fresh records; None where there is no
        room."""
        words = self.words()
        block = blocks_of(words, FORM)[slot][1]
        block.check()
        fresh = renewed(block, self.clients, self.records)
        if fresh is None:
            return None
        at = BLOCKS + slot * self.block
        return booted(words[:at] + fresh + words[at + self.block:])

    # Crashes and recovery.

    def crash(self):
        self.cached = list(self.kept)
        self.request = None
        self.creation = None
        for queue in self.queues:
            if queue:
                queue[1].crash()
        steps = self.recovered()
        next(steps)
        self.recovery = [steps, 0]

    def recovered(self):
        """Before each step is a `yield`."""
        for slot in range(SLOTS):
            yield
            at = 2 + SLOT_WORDS * slot
            if self.cached[at + 3] == 1:
                if not self.queues[slot]:
                    self.open(slot, name_of(*self.cached[at:at + 2]), KINDS[self.cached[at + 2]])
                    self.queues[slot][1].crash()
                # Its name's words, and its kind.
                yield
                yield
                yield
        for queue in self.queues:
            done = None
            while queue and not done:
                yield
                done = queue[1].recover_step()
                if done:
                    queue[2] = done[1]

    def recover_step(self):
        """A step of recovery: how many there were, once the broker is ready."""
        steps, made = self.recovery
        self.recovery[1] += 1
        try:
            next(steps)
        except StopIteration:
            self.recovery = None
            return made + 1
        return None


def booted(words):
    """The machine that begins on words, as a crash left them. It raises Broken where they break a rule."""
    if not words:
        raise Broken("BadCount")
    blocks = blocks_of(words, FORM)
    for found in blocks:
        if found:
            found[1].check()
    machine = BrokerMachine(*words[:2])
    machine.cached = words[:BLOCKS]
    machine.kept = words[:BLOCKS]
    for slot, found in enumerate(blocks):
        if found:
            name, block = found
            machine.open(slot, name, block.kind)
            queue = machine.queues[slot][1]
            queue.kept = block.words[:queue.size]
    machine.crash()
    return machine
