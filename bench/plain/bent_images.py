"""bent_images.py PQX: images near sound ones. Drawn acts leave the words of a broker with a queue of each kind. Then
one to three of them are changed, and a broker begins on them, or the first rule that they break is named; they are
changed back, and others are changed. Where a broker begins, it holds what the words hold, by image.py, and takes a
message out. PQX and the plain machine print the same of each script. Prints how many images break no rule, and each rule
first; at the first difference the script, and status 1."""

import random
import subprocess
import sys
from collections import Counter

from broker_machine import BLOCKS
from broker_script import Player, parsed, transcript
from form import FORM
from image import GREATEST_NUMBER, blocks_of

SCRIPTS = 160
# How many acts a script has at most before its image, and how many lines behind that, or some more.
ACTS = 120
LINES = 800
CLIENTS, RECORDS = 2, 3
NAMES = ["durable", "log"]
# A line on a queue has to be one of a kind that a line creates it of. The words may say any, so there is each; two are
# refused.
CREATIONS = ["create durable durable", "create log log", "create durable log", "create log durable"]


def drawn_act(draw, number):
    """A line on one of the queues or on the whole memory: most often a step of a call or of recovery."""
    name, client = draw.choice(NAMES), draw.randrange(CLIENTS)
    said = f"{number} " if name == "log" else ""
    what = draw.choices(["crash", "evict", "recover", "enq", "deq", "step"], [1, 3, 10, 6, 6, 38])[0]
    if what == "crash":
        return what
    if what == "evict":
        return f"evict {draw.randrange(250)}"
    if what == "recover":
        return f"recover {draw.randrange(1, 30)}"
    if what == "enq":
        return f"{name}: enq {client} {said}{FORM.text(FORM.drawn(draw.randrange(2**32)))}"
    return f"{name}: deq {client} {said}".strip() if what == "deq" else f"{name}: step {client} {draw.randrange(1, 20)}"


def drawn_word(draw, count):
    """A word, most often one of the head, of the directory or of the first two blocks."""
    return draw.randrange(draw.choices([2, BLOCKS, count, 192], [1, 1, 1, 13])[0])


def near(draw, value):
    """A value near an old one, or one that words often have, or any."""
    near = [value + 1, value - 1, 0, 0, draw.randrange(8), draw.randrange(8), 2 ** draw.randrange(64)]
    return draw.choice([*near, draw.randrange(2**32)]) % 2**64


class Script:
    """A script as it is written, and a player that has followed it so far."""

    def __init__(self):
        self.lines = []
        self.player = None

    def add(self, line):
        """What the line prints."""
        self.lines.append(line)
        broker, statements = parsed(f"broker {CLIENTS} {RECORDS}\n{line}".encode())
        self.player = self.player or Player(*broker)
        return [printed for statement in statements for printed in self.player.play(statement)]

    def add_all(self, lines):
        return [printed for line in lines for printed in self.add(line)]

    def text(self):
        return "\n".join([f"broker {CLIENTS} {RECORDS}", *self.lines, ""]).encode()


def serve(script, words):
    """A broker that began is asked what it holds, and takes it out: whether that is what stands in the words."""
    queues = [(name, block) for name, block in filter(None, blocks_of(words, FORM))]
    lines = ["recover", "list"]
    for name, block in queues:
        number = f" {GREATEST_NUMBER}" if block.kind == "log" else ""
        lines += [f"{name}: content", f"{name}: deq 0{number}", f"{name}: end 0", f"{name}: content", f"{name}: order"]
    printed = script.add_all(lines)
    is_right = True
    for name, block in queues:
        block.find_chain()
        held = " ".join(map(FORM.text, block.queue(name).values)) or "-"
        is_right &= f"{name}: content {held}" in printed
    return is_right


def bend(draw, script):
    """Some words are changed, a broker is to begin on them, and they are changed back. What the boot printed, and
    whether all was right."""
    words, changes = script.player.remembered, {}
    for _ in range(draw.randrange(1, 4)):
        word = drawn_word(draw, len(words))
        changes.setdefault(word, words[word])
        script.add(f"set {word} {near(draw, words[word])}")
    said = script.add("boot")[0]
    is_right = serve(script, list(words)) if said == "booted" else True
    script.add_all(f"set {word} {value}" for word, value in changes.items())
    return said, is_right


def drawn_script(draw):
    """A script, how many of its images broke no rule and each rule, and whether all was right."""
    script, counts, is_right = Script(), Counter(), True
    script.add_all(CREATIONS)
    script.add_all(drawn_act(draw, number) for number in range(1, draw.randrange(ACTS)))
    script.add("image")
    while len(script.lines) < LINES:
        said, right = bend(draw, script)
        counts[said.split()[-1]] += 1
        is_right &= right
    script.add_all(["boot", "recover", "image", "boot", "recover", *(f"{name}: content" for name in NAMES)])
    return script.text(), counts, is_right


def difference(pqx, text, is_right):
    if not is_right:
        return "the plain machine does not hold what the words hold"
    wanted = transcript(text)
    done = subprocess.run([pqx, "broker", "run"], input=text, capture_output=True, timeout=60)
    if (done.stdout, done.stderr, done.returncode) != wanted:
        return f"plain {wanted}, program {done.stdout} {done.stderr} {done.returncode}"
    return None


def main(pqx):
    counts = Counter()
    for seed in range(SCRIPTS):
        text, found, is_right = drawn_script(random.Random(seed))
        counts += found
        said = difference(pqx, text, is_right)
        if said:
            print(f"bent images differ: {said}\n{text.decode()}")
            return 1
    print(f"images {sum(counts.values())}: " + ", ".join(f"{rule} {count}" for rule, count in sorted(counts.items())))
    return 0


if __name__ == "__main__":
    sys.exit(main(*sys.argv[1:]))
