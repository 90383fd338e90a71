"""Draws scripts of acts, most of which are accepted, and some that are near scripts."""

from form import FORM
from layout import Layout


class Writer:
    """Writes a script, and knows about what stands in it."""

    def __init__(self, draw):
        self.draw = draw
        self.is_log = draw.random() < 0.5
        self.clients, self.records = draw.choice([(1, 1), (1, 3), (2, 1), (2, 2), (2, 4), (3, 3), (4, 5), (16, 1)])
        self.size = Layout("log" if self.is_log else "durable", self.clients, self.records).size
        self.numbers = [0] * self.clients
        self.values = 0

    def client(self):
        return self.clients if self.draw.random() < 0.01 else self.draw.randrange(self.clients)

    def call(self):
        draw, client = self.draw, self.client()
        words = [draw.choice(["enq", "enq", "deq"]), client]
        if self.is_log and client < self.clients:
            self.numbers[client] = max(0, self.numbers[client] + draw.choices([1, 0, 2, -1], [20, 3, 1, 1])[0])
            words.append(self.numbers[client])
        elif self.is_log:
            words.append(1)
        if words[0] == "enq":
            self.values += 1
            number = self.values if draw.random() < 0.98 else draw.choice([0, 2**32 - 1, 2**32])
            words.append(FORM.text(FORM.drawn(number)))
        return words

    def act(self):
        draw = self.draw
        what = draw.choices(
            ["call", "step", "end", "evict", "crash", "recover", "content", "order", "again"],
            [30, 50, 10, 12, 4, 6, 2, 2, 2],
        )[0]
        if what == "call":
            return [self.call()]
        if what == "step":
            return [["step", self.client(), draw.choice([1, 1, 2, 3, 5, 9, 14, 20])]]
        if what == "end":
            return [["end", self.client()]]
        if what == "evict":
            return [["evict", draw.randrange(self.size + (draw.random() < 0.05))]]
        if what == "crash":
            # Most crashes are followed by recovery at once, or nothing would be accepted for long.
            recovers = draw.choice([[["recover"]], [["recover"]], [["recover", 3], ["crash"], ["recover"]], []])
            return [["crash"], *recovers]
        if what == "recover":
            return [["recover"]] if draw.random() < 0.7 else [["recover", draw.randrange(1, 12)]]
        return [[what]]

    def script(self):
        draw = self.draw
        lines = [["queue", "log" if self.is_log else "durable", self.clients, self.records]]
        for _ in range(draw.randrange(1, draw.choice([8, 40, 150]))):
            lines += self.act()
        if draw.random() < 0.7:
            lines += [["order"], ["content"], ["crash"], ["recover"], ["order"], ["content"]]
        return lines


def bad(draw, text):
    """Some bytes are other ones, or are missing, or there are more."""
    text = bytearray(text)
    for _ in range(draw.choice([1, 1, 2])):
        at = draw.randrange(len(text))
        change = draw.randrange(3)
        if change == 0:
            text[at:at + 1] = bytes([draw.choice(b"0123456789 \n#\r\t-+qedsclor\x00\xff")])
        elif change == 1:
            text[at:at] = bytes([draw.choice(b"0123456789 \n#\r\t-+qedsclor\x00\xff")])
        else:
            del text[at:at + draw.choice([1, 1, 4])]
    return bytes(text)


def drawn_script(draw):
    lines = Writer(draw).script()
    texts = [" ".join(map(str, words)) for words in lines]
    for _ in range(draw.choice([0, 0, 1, 3])):
        texts.insert(draw.randrange(len(texts) + 1), draw.choice(["", "# a comment", "#"]))
    if draw.random() < 0.02:
        texts += [draw.choice(["", "content", "# more"])] * draw.choice([1000 - len(texts), 1001 - len(texts), 2000])
    text = "\n".join(texts).encode() + (b"" if draw.random() < 0.2 else b"\n")
    return bad(draw, text) if draw.random() < 0.12 else text
