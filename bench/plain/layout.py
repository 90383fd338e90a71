"""Which word is which, by the tables of layouts in docs/TABLES.md."""

from form import FORM

HEAD, TAIL = 0, 1
# The parts of a node behind its message, and those of what answers a call.
NODE_PARTS = {"durable": ("next", "mark"), "log": ("next", "insert", "mark")}
ANSWER_PARTS = {"durable": ("cell",), "log": ("number", "kind", "status", "node")}


class Layout:
    """The words of one queue, by their places."""

    def __init__(self, kind, clients, records, form=FORM):
        self.kind = kind
        self.clients = clients
        self.records = records
        self.form = form
        self.last = clients * records
        self.parts = form.parts + NODE_PARTS[kind]
        self.width = len(self.parts)
        self.begin = 2 + 2 * clients
        self.answer_parts = ANSWER_PARTS[kind]
        self.answer_width = len(self.answer_parts)
        self.answers = self.begin + self.width * (self.last + 1)
        self.size = self.answers + self.answer_width * self.last

    def node(self, number, part):
        return self.begin + self.width * number + self.parts.index(part)

    def message(self, number):
        """The words of a node's message."""
        return range(self.node(number, self.form.parts[0]), self.node(number, "next"))

    def entry(self, number, part="cell"):
        return self.answers + self.answer_width * (number - 1) + self.answer_parts.index(part)

    def announcement(self, client):
        return 2 + client

    def bump(self, client):
        return 2 + self.clients + client

    def place(self, word):
        """The name of the place whose word this is: the same in a layout with other words."""
        if word < self.begin:
            names = [("head",), ("tail",)]
            names += [(name, client) for name in ("announcement", "bump") for client in range(self.clients)]
            return names[word]
        if word < self.answers:
            number, at = divmod(word - self.begin, self.width)
            return self.parts[at], number
        number, at = divmod(word - self.answers, self.answer_width)
        return self.answer_parts[at], number + 1


def block_size(clients, records, form=FORM):
    """How many words a broker has for each queue, whichever kind it is."""
    return Layout("log", clients, records, form).size
