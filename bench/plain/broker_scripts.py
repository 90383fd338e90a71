"""Draws scripts of a whole broker, most of whose acts are accepted, and some that are near scripts."""

from broker import SLOTS
from form import FORM
from layout import block_size
from scripts import bad

NAMES = ["a", "b", "c", "d-1", "e_2", "ffffffffffffffff", "0", "h", "i"]


class Writer:
    """Writes a script, and knows about what stands in it."""

    def __init__(self, draw):
        self.draw = draw
        self.clients, self.records = draw.choice([(1, 1), (1, 3), (2, 2), (2, 4), (3, 5)])
        self.block = block_size(self.clients, self.records)
        self.size = 34 + SLOTS * self.block
        # Of each name that was created: its kind. Of each of its clients: the last number.
        self.kinds = {}
        self.numbers = {}
        self.values = 0
        self.has_image = False
        # Whether clients ask the session, too.
        self.asks = draw.random() < 0.5

    def name(self):
        known = list(self.kinds)
        return self.draw.choice(known) if known and self.draw.random() < 0.97 else self.draw.choice(NAMES)

    def client(self):
        return self.clients if self.draw.random() < 0.01 else self.draw.randrange(self.clients)

    def creation(self):
        draw = self.draw
        name = draw.choice(NAMES)
        kind = self.kinds.setdefault(name, draw.choice(["durable", "log"]))
        if draw.random() < 0.6:
            return [["create", name, kind]]
        return [["create", name, kind, draw.randrange(1, 13)], *draw.choice([[], [], [["create-step", 5]]])]

    def call(self):
        draw, name, client = self.draw, self.name(), self.client()
        kind = self.kinds.get(name, "durable")
        words = [name + ":", draw.choice(["enq", "enq", "deq"]), client]
        if kind == "log":
            last = self.numbers.get((name, client), 0)
            self.numbers[name, client] = max(0, last + draw.choices([1, 0, 2, -1], [20, 3, 1, 1])[0])
            words.append(self.numbers[name, client])
        if words[1] == "enq":
            self.values += 1
            words.append(FORM.text(FORM.drawn(self.values)))
        return words

    def ask(self):
        """A session's client asks: most often for its next number, or for the last one again."""
        draw, name, client = self.draw, self.name(), self.client()
        what = draw.choices(["request", "begin", "plain"], [6, 4, 1])[0]
        if draw.random() < 0.9:
            what = "plain" if self.kinds.get(name, "log") == "durable" else what if what != "plain" else "request"
        words = [name + ":", what, client]
        if what != "plain":
            last = self.numbers.get((name, client), 0)
            number = max(0, last + draw.choices([1, 0, -1, 2], [12, 8, 1, 1])[0])
            self.numbers[name, client] = max(number, last) if number <= last + 1 else last
            words.append(number)
        if draw.random() < 0.6:
            self.values += 1
            return [*words, "enq", FORM.text(FORM.drawn(self.values))]
        return [*words, "deq"]

    def word(self):
        """A word that may well differ: of the directory, or of one of the first queues."""
        draw = self.draw
        if draw.random() < 0.03:
            return draw.randrange(self.size, self.size + 3)
        if draw.random() < 0.2:
            return draw.randrange(34)
        return 34 + draw.randrange(max(1, min(SLOTS, len(self.kinds)))) * self.block + draw.randrange(self.block)

    def image(self):
        """An image, of which words may be changed, and a broker that begins on it."""
        draw = self.draw
        changes = [["set", self.word(), draw.choice([0, 1, 2, 3, 5, 25, 256, 2**40, 2**64 - 1])]
                   for _ in range(draw.choice([0, 0, 0, 1, 1, 2]))]
        return [["image"], *changes, ["boot"], *draw.choice([[["recover"]], [["recover"]], [["recover", 9]], []])]

    def act(self):
        draw = self.draw
        acts = {"creation": 8, "create-step": 6, "call": 30, "step": 45, "end": 10, "evict": 14, "crash": 4}
        acts |= {"recover": 6, "image": 8, "rotate": 3, "renew": 5, "show": 8, "again": 2}
        acts |= {"ask": 40, "call": 6} if self.asks else {}
        what = draw.choices(list(acts), list(acts.values()))[0]
        if what == "creation":
            return self.creation()
        if what == "create-step":
            return [[what]] if draw.random() < 0.5 else [[what, draw.randrange(1, 13)]]
        if what == "call":
            return [self.call()]
        if what == "ask":
            return [self.ask()]
        if what == "step":
            return [[self.name() + ":", "step", self.client(), draw.choice([1, 1, 2, 3, 5, 9, 14, 20])]]
        if what == "end":
            return [[self.name() + ":", "end", self.client()]]
        if what == "evict":
            return [["evict", self.word()]]
        if what == "crash":
            recovers = draw.choice([[["recover"]], [["recover"]], [["recover", 30], ["crash"], ["recover"]], []])
            return [["crash"], *recovers]
        if what == "recover":
            return [["recover"]] if draw.random() < 0.7 else [["recover", draw.randrange(1, 60)]]
        if what == "image":
            return self.image()
        if what in ("rotate", "again"):
            return [[what]]
        if what == "renew":
            return [["renew", self.name()], *draw.choice([[["recover"]], [["recover"]], [["recover", 9]], []])]
        return [draw.choice([
            ["list"], ["find", self.name()], [self.name() + ":", "told", self.client()],
            [self.name() + ":", "content"], [self.name() + ":", "order"], ["set", self.word(), 1], ["boot"],
        ])]

    def script(self):
        draw = self.draw
        lines = [["broker", self.clients, self.records]]
        if draw.random() < 0.9:
            for name in draw.sample(NAMES, draw.choice([1, 2, 2, 3])):
                self.kinds[name] = draw.choice(["durable", "log"])
                lines.append(["create", name, self.kinds[name]])
        for _ in range(draw.randrange(1, draw.choice([8, 60, 200]))):
            lines += self.act()
        lines += [["list"]]
        for name in self.kinds:
            lines += [[name + ":", "order"], [name + ":", "content"]]
        return lines


def drawn_script(draw):
    lines = Writer(draw).script()
    texts = [" ".join(map(str, words)) for words in lines][:1000]
    for _ in range(draw.choice([0, 0, 1, 3])):
        texts.insert(draw.randrange(len(texts) + 1), draw.choice(["", "# a comment", "#"]))
    text = "\n".join(texts).encode() + (b"" if draw.random() < 0.2 else b"\n")
    return bad(draw, text) if draw.random() < 0.12 else text
