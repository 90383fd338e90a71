"""The order that journals are: which items were put and taken, one after another, by the changes of kept words in all
files of a run. By docs/JOURNAL.md, docs/TABLES.md and docs/MODEL.md."""

import struct
from functools import cache

from image import KINDS, Block, Broken, name_of, require
from journal import CHANGE, FRONT, HEAD, SUM, sum_of
from layout import Layout, block_size

DIRECTORY = 34


def frames(data):
    """The words on which a journal begins, and the changes of its frames, as far as each says the sum of the one
    before. Of the last one alone the sum is worked out, since it may be torn, with room behind it: what is wrong with
    the others, `reading` of journal finds."""
    (count,) = struct.unpack_from("<Q", data, 8)
    at = HEAD + 8 * count
    key = data[at - 2 * SUM:at - SUM]
    words, changes = list(struct.unpack_from(f"<{count}Q", data, 16)), []
    last = None
    while len(data) >= at + FRONT and data[at:at + SUM] == data[at - SUM:at]:
        (made,) = struct.unpack_from("<I", data, at + 16)
        end = at + FRONT + CHANGE * made
        if made == 0 or len(data) < end + SUM:
            break
        last = at, len(changes)
        changes += struct.iter_unpack("<IQ", data[at + FRONT:end])
        at = end + SUM
    if last and data[at - SUM:at] != sum_of(key, data[last[0]:at - SUM]):
        del changes[last[1]:]
    return words, changes


@cache
def places_of(kind, clients, records):
    layout = Layout(kind, clients, records)
    return [layout.place(word) for word in range(layout.size)]


class Followed:
    """One queue as its words change: what it holds by the order so far, and that order."""

    def __init__(self, name, block):
        self.name = name
        self.block = block
        self.places = places_of(block.kind, block.clients, block.records)
        self.order = []
        self.held = []
        # The last word that a renewal has written, where one is under way.
        self.renewing = None

    def content(self):
        """What the words hold, by their links and marks."""
        items, at = [], self.block.of_node(0, "next")
        while at:
            if not self.block.mark(at):
                items.append(self.block.message_at(at))
            at = self.block.of_node(at, "next")
        return items

    def check(self):
        """The words hold what the order leaves."""
        self.renewing = None
        require(self.content() == self.held, f"{self.name}: the words hold another content than the order leaves")

    def change(self, word, value):
        before, self.block.words[word] = self.block.words[word], value
        if self.renewing is not None and word > self.renewing:
            self.renewing = word
            return
        if self.renewing is not None:
            self.check()
        part, *number = self.places[word]
        if part == "bump" and value < before:
            # A renewal writes the block anew, one word after another, the bump words before all nodes.
            self.renewing = word
        elif part == "next" and value:
            self.held.append(self.block.message_at(value))
            self.order.append(("put", self.held[-1]))
        elif part == "mark" and value:
            taken = self.block.message_at(number[0])
            require(self.held[:1] == [taken], f"{self.name}: {taken} is taken, and {self.held[:1]} is first")
            self.order.append(("take", self.held.pop(0)))


class Orders:
    """The queues of a broker, over all files of its journal, by their names."""

    def __init__(self):
        self.queues = {}

    def begin(self, words):
        """Each queue goes on with these words, which hold what its order leaves."""
        self.words, self.width = words, block_size(*words[:2])
        self.slots = [None] * 8
        for slot in range(8):
            self.open(slot)
        for queue in self.queues.values():
            queue.check()

    def open(self, slot):
        """The queue of a slot, once its gate is open."""
        first, second, kind, gate = self.words[2 + 4 * slot:6 + 4 * slot]
        if not gate:
            return
        begin = DIRECTORY + slot * self.width
        block = Block(KINDS[kind], *self.words[:2], self.words[begin:begin + self.width])
        name = name_of(first, second)
        queue = Followed(name, block)
        if name in self.queues:
            queue.order, queue.held = self.queues[name].order, self.queues[name].held
        else:
            queue.held = queue.content()
        self.queues[name] = self.slots[slot] = queue

    def change(self, word, value):
        if word >= DIRECTORY:
            slot, inner = divmod(word - DIRECTORY, self.width)
            require(self.slots[slot] is not None, f"word {word} of a slot without a queue changes")
            self.slots[slot].change(inner, value)
            return
        self.words[word] = value
        if self.slots[(word - 2) // 4] is None:
            self.open((word - 2) // 4)

    def follow(self, data):
        """One file of the journal more."""
        words, changes = frames(data)
        self.begin(words)
        for word, value in changes:
            self.change(word, value)
        for queue in self.queues.values():
            queue.check()


def order_of(files):
    """Of each queue the order of its puts and takes, over the bytes of these files."""
    orders = Orders()
    for data in files:
        orders.follow(data)
    return {name: queue.order for name, queue in orders.queues.items()}
