"""The words of a queue at rest, written anew: what it holds and what it told, in fresh records. By docs/MODEL.md."""

from form import FORM
from image import Block
from layout import block_size


def fits(count, clients, records):
    """Whether there is room: two records of each client, and one for each item."""
    return count + 2 * clients <= clients * records


class Renewal:
    """The words of a queue of this kind for so many clients and records, that holds these items and tells this."""

    def __init__(self, kind, clients, records, items, tells):
        self.new = Block(kind, clients, records, [0] * block_size(clients, records), FORM)
        self.items = items
        self.tells = tells
        self.write()

    def first(self, client):
        return 1 + client * self.new.records

    def item_record(self, at):
        """Items are dealt out to all clients in turn, from the third record of each on."""
        turn, client = divmod(at, self.new.clients)
        return 1 + client * self.new.records + 2 + turn

    def put_message(self, number, item):
        for word, value in zip(self.new.message(number), FORM.words_of(item)):
            self.new.words[word] = value

    def put_entry(self, number, part, value):
        self.new.words[self.new.entry(number, part)] = value

    def write(self):
        chain = []
        for client, told in enumerate(self.tells):
            if "got" in told or told.get("reply") == "done":
                chain.append(self.first(client))
                self.put_message(self.first(client), told.get("got", ""))
                self.new.words[self.new.node(self.first(client), "mark")] = self.first(client) + 1
        for at, item in enumerate(self.items):
            chain.append(self.item_record(at))
            self.put_message(self.item_record(at), item)
        for node, after in zip([0, *chain], chain):
            self.new.words[self.new.node(node, "next")] = after
        for client in range(self.new.clients):
            turns = -(-(len(self.items) - client) // self.new.clients)
            self.new.words[self.new.bump(client)] = 2 + max(0, turns)
        if self.new.kind == "durable":
            self.write_cells()
        else:
            self.write_entries(chain)

    def write_cells(self):
        for client, told in enumerate(self.tells):
            if told["row"] == "nocall":
                continue
            first = self.first(client)
            self.new.words[self.new.announcement(client)] = first + 1
            cells = {"got": 2 + first, "empty": 1, "open": 0}
            self.put_entry(first + 1, "cell", cells[told["row"]])

    def write_entries(self, chain):
        for node in chain:
            self.new.words[self.new.node(node, "insert")] = node
            self.put_entry(node, "kind", 1)
            self.put_entry(node, "node", node)
        for client, told in enumerate(self.tells):
            if told["told"] == "none":
                continue
            first = self.first(client)
            log = first if told.get("reply") == "done" else first + 1
            self.new.words[self.new.announcement(client)] = log
            self.put_entry(log, "number", told["number"])
            self.put_entry(first + 1, "kind", 2)
            if first in chain:
                self.put_entry(first + 1, "node", first)
            if told.get("reply") == "empty":
                self.put_entry(first + 1, "status", 2)


def renewed(block, clients, records):
    """The words of a queue of the same kind with so many clients, at least as many as now, and so many records of each;
    None where there is no room. The old words keep to each rule, and are checked."""
    old = block.queue("")
    if not fits(len(old.values), clients, records):
        return None
    nothing = Block(block.kind, 1, 1, [0] * block_size(1, 1), FORM).told(0)
    tells = old.kept + [nothing] * (clients - block.clients)
    return Renewal(block.kind, clients, records, old.values, tells).new.words
