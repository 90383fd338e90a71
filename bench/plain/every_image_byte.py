"""every_image_byte.py PQX [all]: images that differ from a sound one in one byte, of three sound ones: with a log queue
of two records, with a queue of each kind, and without a queue. A broker begins on each, or the first rule that it breaks
is named, as image.py reads it. A broker that began has the image's words and its queues. It tells what the words tell,
holds what they hold, and client 0 takes a message out. Prints how many images were served, and how many broke each rule
first; at the first difference the script, and status 1.

With `all` each byte has each other value. Else it has those that may change what its word means: of the low byte, and
of each byte of names, messages and call numbers, all; of another byte the ones beside it and four more. The twelve bytes
before the words are not changed here: no line of a script reads them."""

import hashlib
import itertools
import os
import subprocess
import sys
from collections import Counter
from concurrent.futures import ThreadPoolExecutor

from broker_script import Player, parsed
from form import FORM
from image import GREATEST_NUMBER, Broken, blocks_of, image_of

# How many lines a script has when it ends, or some more.
LINES = 930
AT_ONCE = 32
# A message of four bytes. Of each queue a line creates one of the other kind too, which is refused: the words may say
# either, and a line on a queue has to be one of a kind that a line creates it of.
PUT = "05000000"
SOUND = {
    "one put": ["broker 1 2", "create q log", "create q durable", f"q: enq 0 1 {PUT}", "q: end 0"],
    "two queues": ["broker 1 1", "create d durable", "create l log", "create d log", "create l durable",
                   f"d: enq 0 {PUT}", "d: end 0", f"l: enq 0 1 {PUT}", "l: end 0"],
    "no queue": ["broker 1 1"],
}
BYTES = range(8)
FEW = (0, 1, 128, 255)


def sound_words(lines):
    """The words of the image that a script leaves, by the plain machine."""
    broker, statements = parsed("\n".join([*lines, "image"]).encode())
    player = Player(*broker)
    for statement in statements:
        player.play(statement)
    return list(player.remembered)


def words_with_text(words):
    """The words of which each byte means something: of names, messages and call numbers."""
    found = set()
    for slot, entry in enumerate(blocks_of(words, FORM)):
        if entry is None:
            continue
        block = entry[1]
        begin = len(words) - (8 - slot) * len(block.words)
        found |= {2 + 4 * slot, 3 + 4 * slot}
        for node in range(block.last + 1):
            found |= {begin + word for word in block.message(node)}
        if block.kind == "log":
            found |= {begin + block.entry(number, "number") for number in range(1, block.last + 1)}
    return found


def changes(words, is_whole):
    """Each word with another value, as word and value."""
    with_text = words_with_text(words)
    for word, value in enumerate(words):
        for at in BYTES:
            byte = value >> 8 * at & 255
            every = is_whole or at == 0 or word in with_text
            for other in range(256) if every else sorted({(byte - 1) % 256, (byte + 1) % 256, *FEW}):
                if other != byte:
                    yield word, value ^ (byte ^ other) << 8 * at


def told_text(told):
    """What a client is told, as a transcript has it."""
    said = f"got {FORM.text(told['got'])}" if "got" in told else told.get("row", told.get("reply", told.get("told")))
    return f"{told['number']} {said}" if "number" in told else said


def lines_of_queue(name, block):
    """Lines on a queue, each with how what it prints begins: what it holds, and a message that client 0 takes out."""
    numbered = f" {GREATEST_NUMBER}" if block.kind == "log" else ""
    queue, entry = block.queue(name), block.announced(0)
    held = [FORM.text(value) for value in queue.values]
    lines = [(f"{name}: content", f"{name}: content {' '.join(held) or '-'}\n")]
    if numbered and entry and block.answer(entry)[0] == GREATEST_NUMBER:
        return [*lines, (f"{name}: deq 0{numbered}", f"{name}: refused 9 StaleNumber\n")]
    if queue.begun[0] == block.records:
        return [*lines, (f"{name}: deq 0{numbered}", f"{name}: refused 11 NoRoom\n")]
    reply = f"got {held[0]}" if held else "empty"
    return [*lines, (f"{name}: deq 0{numbered}", f"{name}: call deq 0{numbered}\n"),
            (f"{name}: end 0", f"{name}: return 0 {reply} steps "),
            (f"{name}: content", f"{name}: content {' '.join(held[1:]) or '-'}\n")]


def lines_of_broker(words, blocks):
    """Lines of a broker that began on these words, each with how what it prints begins."""
    data = image_of(words)
    queues = [(slot, *entry) for slot, entry in enumerate(blocks) if entry]
    lines = [("image", f"image bytes {len(data)} digest {hashlib.sha256(data).hexdigest()[:8]}\n"),
             ("recover", "ready steps ")]
    lines += [(None, f"{name}: told 0 {told_text(block.told(0))}\n") for _, name, block in queues]
    lines += [("list", f"queues {len(queues)}\n")]
    lines += [(None, f"slot {slot} {name} {block.kind}\n") for slot, name, block in queues]
    return lines + [line for _, name, block in queues for line in lines_of_queue(name, block)]


def lines_of_words(words):
    """What becomes of these words, and the lines behind `set`, each with how what it prints begins."""
    try:
        blocks = blocks_of(words, FORM)
        for entry in filter(None, blocks):
            entry[1].check()
    except Broken as broken:
        return str(broken), [("boot", f"refused 29 Damaged {broken}\n")]
    return "served", [("boot", "booted\n"), *lines_of_broker(words, blocks)]


def begun_again(blocks):
    """Lines of a broker that leaves an image, and of one that begins on it."""
    names = [entry[0] for entry in blocks if entry]
    return [("image", "image bytes "), ("boot", "booted\n"), ("recover", "ready steps "),
            *((None, f"{name}: told 0 ") for name in names)]


class Script:
    """Lines behind an image of these words, each with how what it prints begins."""

    def __init__(self, first, words):
        self.first, self.words, self.now = [*first, "image"], words, list(words)
        # The lines, the word that is another one now, and the change that was served last.
        self.lines, self.changed, self.served = [], None, None

    def set(self, word, value):
        self.lines.append((f"set {word} {value}", f"set {word} was {self.now[word]}\n"))
        self.now[word] = value

    def change(self, word, value):
        """This word alone is another one: what becomes of the image."""
        if self.changed not in (None, word):
            self.set(self.changed, self.words[self.changed])
        self.set(word, value)
        self.changed = word
        what, lines = lines_of_words(self.now)
        self.lines += lines
        if what == "served":
            self.served = word, value
        return what

    def end(self):
        """At the end the broker that was served last leaves an image, on which another one begins."""
        if self.served:
            self.change(*self.served)
            self.lines += begun_again(blocks_of(self.now, FORM))
        return self.first, self.lines


def scripts(is_whole, counts):
    """Scripts, each with how the lines that it prints behind its first `image` begin."""
    for name, first in SOUND.items():
        words = sound_words(first)
        script = Script(first, words)
        for word, value in changes(words, is_whole):
            counts[name, script.change(word, value)] += 1
            if len(script.lines) >= LINES:
                yield script.end()
                script = Script(first, words)
        yield script.end()


def difference(pqx, first, lines):
    """Where the program prints something else than these lines, or nothing."""
    text = "\n".join([*first, *(line for line, _ in lines if line)]) + "\n"
    done = subprocess.run([pqx, "broker", "run"], input=text.encode(), capture_output=True, timeout=60)
    printed = done.stdout.decode().splitlines(keepends=True)
    begin = next((at for at, line in enumerate(printed) if line.startswith("image ")), 0) + 1
    wanted = [said for _, said in lines]
    if done.returncode or done.stderr or len(printed) - begin != len(wanted):
        return f"status {done.returncode}, {done.stderr}, {len(printed) - begin} lines for {len(wanted)}\n{text}"
    for found, said in zip(printed[begin:], wanted):
        if not found.startswith(said):
            return f"wanted {said!r}, found {found!r}\n{text}"
    return None


def main(pqx, form="few"):
    counts = Counter()
    made = scripts(form == "all", counts)
    with ThreadPoolExecutor(os.cpu_count()) as pool:
        # Some scripts at a time, so that the first difference ends it.
        while some := list(itertools.islice(made, AT_ONCE)):
            for said in pool.map(lambda script: difference(pqx, *script), some):
                if said:
                    print(f"images differ: {said}")
                    return 1
    for name in SOUND:
        found = {what: count for (of, what), count in sorted(counts.items()) if of == name}
        print(f"{name}, images {sum(found.values())}: " + ", ".join(f"{what} {found[what]}" for what in found))
    return 0


if __name__ == "__main__":
    sys.exit(main(*sys.argv[1:]))
