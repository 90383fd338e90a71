"""What an image keeps, by docs/IMAGE.md and docs/TABLES.md: a broker, or the first rule that the bytes break."""

import struct

from broker import NAME, NOTHING, SLOTS, Broker, Queue
from form import FORM
from layout import HEAD, TAIL, Layout, block_size

MOST_WORDS = 8388608
GREATEST_NUMBER = 2**40
KINDS = {1: "durable", 2: "log"}


class Broken(Exception):
    """The rule that is broken."""


def require(holds, rule):
    if not holds:
        raise Broken(rule)


def words_of(data, form=FORM):
    """The words, or the refusal."""
    if data[:4] != form.magic[:len(data)]:
        raise Broken("BadMagic")
    require(len(data) >= 12, "Truncated")
    count = struct.unpack_from("<Q", data, 4)[0]
    require(1 <= count <= MOST_WORDS, "BadCount")
    require(len(data) >= 12 + 8 * count, "Truncated")
    require(len(data) == 12 + 8 * count, "TrailingBytes")
    return list(struct.unpack_from(f"<{count}Q", data, 12))


def image_of(words, form=FORM):
    return form.magic + struct.pack(f"<{len(words) + 1}Q", len(words), *words)


class Block(Layout):
    """The kept words of one queue."""

    def __init__(self, kind, clients, records, words, form=FORM):
        super().__init__(kind, clients, records, form)
        self.words = words

    def announced(self, client):
        return self.words[self.announcement(client)]

    def begun(self, client):
        return self.words[self.bump(client)]

    def of_node(self, number, part):
        return self.words[self.node(number, part)]

    def mark(self, number):
        return self.of_node(number, "mark")

    def insert(self, number):
        """0 in a durable queue."""
        return self.of_node(number, "insert") if self.kind == "log" else 0

    def message_words(self, number):
        return [self.words[word] for word in self.message(number)]

    def message_at(self, number):
        return self.form.message_of(self.message_words(number))

    def answer(self, number):
        """The cell; or number, kind, status and node of the entry."""
        at = self.entry(number, self.answer_parts[0])
        return self.words[at:at + self.answer_width]

    def cell(self, number):
        return self.answer(number)[0]

    def is_unused(self, number):
        at = self.begin + self.width * number
        return not any(self.words[at:at + self.width] + self.answer(number))

    def is_issued(self, number):
        return 1 <= number <= self.last and (number - 1) % self.records < self.begun((number - 1) // self.records)

    def is_clients(self, number, client):
        return self.is_issued(number) and (number - 1) // self.records == client

    def find_chain(self):
        """The nodes that links reach, and where each of them stands; the rule of chains holds then."""
        self.chain, at = [], self.of_node(0, "next")
        while at != 0:
            require(self.is_issued(at) and at not in self.chain, "Chain")
            self.chain.append(at)
            at = self.of_node(at, "next")
        # Of each mark: the claimed node.
        self.claimed = {self.mark(number): number for number in self.chain if self.mark(number)}

    def is_behind_head(self, number):
        """Whether the head is at this node of the chain, or after it."""
        head = self.words[HEAD]
        return head in self.chain and self.chain.index(head) >= self.chain.index(number)

    def check(self):
        """The rules of docs/TABLES.md, in their order."""
        require(not any(self.words[self.size:]), "Size")
        require(all(self.begun(client) <= self.records for client in range(self.clients)), "Records")
        for number in range(1, self.last + 1):
            require(self.is_issued(number) or self.is_unused(number), "Records")
        self.find_chain()
        for number in range(1, self.last + 1):
            require(number in self.chain or not self.of_node(number, "next") and not self.mark(number), "Chain")
        require(not any(self.message_words(0)) and not self.insert(0) and not self.mark(0), "Chain")
        self.check_claims()
        self.check_ends()
        if self.kind == "durable":
            self.check_rows()
        else:
            self.check_entries()

    def check_claims(self):
        require(all(self.form.is_sound(self.message_words(number)) for number in range(self.last + 1)), "Claims")
        marks = [self.mark(number) for number in self.chain]
        count = len([mark for mark in marks if mark])
        require(all(marks[:count]), "Claims")
        require(all(self.is_issued(mark) for mark in marks[:count]), "Claims")
        require(len(self.claimed) == count, "Claims")

    def check_ends(self):
        head, tail = self.words[HEAD], self.words[TAIL]
        require(head == 0 or head in self.claimed.values(), "Ends")
        require(tail == 0 or tail in self.chain, "Ends")

    def check_rows(self):
        for client in range(self.clients):
            row = self.announced(client)
            require(row == 0 or self.is_clients(row, client), "Rows")
        for number in range(1, self.last + 1):
            cell, node = self.cell(number), self.claimed.get(number)
            if cell >= 2:
                require(node is not None and cell == self.form.cell_of(node, self.message_at(node)), "Rows")
            if node is not None:
                require(cell != 1 and (cell != 0 or not self.is_behind_head(node)), "Rows")

    def check_entries(self):
        for number in self.chain:
            require(self.insert(number) == number and self.answer(number)[1] == 1, "Entries")
        for client in range(self.clients):
            log = self.announced(client)
            require(log == 0 or self.is_clients(log, client) and self.is_announced(log), "Entries")
        for number in range(1, self.last + 1):
            self.check_entry(number)

    def is_announced(self, log):
        number, kind, _, node = self.answer(log)
        return kind in (1, 2) and 1 <= number <= GREATEST_NUMBER and (kind != 1 or node == log)

    def check_entry(self, entry):
        _, kind, status, node = self.answer(entry)
        claimed = self.claimed.get(entry)
        require(kind in (0, 1, 2), "Entries")
        if status != 0:
            is_taken = status == 1 and kind == 1 and entry in self.chain
            is_empty = status == 2 and kind == 2 and claimed is None
            require(is_taken or is_empty, "Entries")
        require(claimed is None or kind == 2, "Entries")
        if kind == 2:
            require(node == 0 or node == claimed, "Entries")
            require(node != 0 or claimed is None or not self.is_behind_head(claimed), "Entries")

    def told(self, client):
        """What the kept words tell a client."""
        log = self.announced(client)
        if log == 0:
            return NOTHING[self.kind]
        got = {"got": self.message_at(self.claimed[log])} if log in self.claimed else None
        if self.kind == "durable":
            return {**got, "row": "got"} if got else {"row": "empty" if self.cell(log) == 1 else "open"}
        number, kind, status, _ = self.answer(log)
        if kind == 1:
            reply = {"reply": "done"} if log in self.chain else None
        elif status == 2:
            reply = {"reply": "empty"}
        else:
            reply = {**got, "reply": "got"} if got else None
        return {**reply, "number": number, "told": "taken"} if reply else {"number": number, "told": "nottaken"}

    def queue(self, name):
        queue = Queue(name, self.kind, self.clients)
        queue.values = [self.message_at(number) for number in self.chain if not self.mark(number)]
        queue.begun = [self.begun(client) for client in range(self.clients)]
        queue.kept = [self.told(client) for client in range(self.clients)]
        return queue


def name_of(first, second):
    """The name that two words spell, or None."""
    text = struct.pack("<2Q", first, second).rstrip(b"\0").decode("latin-1")
    return text if NAME.fullmatch(text) else None


def blocks_of(words, form):
    """Of each slot the name and the words of its queue, or None; the rules of an image and of a directory hold then."""
    require(len(words) >= 2 and 1 <= words[0] <= 16 and 1 <= words[1] <= 4096, "Image")
    clients, records = words[:2]
    width = block_size(clients, records, form)
    require(len(words) == 34 + SLOTS * width, "Image")
    blocks = [None] * SLOTS
    for slot in range(SLOTS):
        first, second, kind, gate = words[2 + 4 * slot:6 + 4 * slot]
        inner = words[34 + slot * width:34 + (slot + 1) * width]
        require(gate in (0, 1), "Directory")
        name = name_of(first, second) if gate else None
        require(not gate or name and kind in KINDS, "Directory")
        require(gate or not any(inner), "Directory")
        if gate:
            blocks[slot] = name, Block(KINDS[kind], clients, records, inner, form)
    names = [block[0] for block in blocks if block]
    require(len(set(names)) == len(names), "Directory")
    return blocks


def broker_of_words(words, form=FORM):
    """The broker that words keep, before anybody was told anything."""
    blocks = blocks_of(words, form)
    broker = Broker(*words[:2])
    for slot, found in enumerate(blocks):
        if found:
            name, block = found
            block.check()
            broker.queues[slot] = block.queue(name)
    return broker


def broker_of(data):
    return broker_of_words(words_of(data))


def content(broker):
    """All that an image keeps of a broker, to be compared."""
    queues = [queue and (queue.name, queue.kind, queue.values, queue.begun, queue.kept) for queue in broker.queues]
    return broker.clients, broker.records, queues
