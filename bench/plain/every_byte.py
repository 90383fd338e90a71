"""every_byte.py PQD PQX FOLDER lines|scripts|brokers: each byte at each place of a request of each kind, and lines of
drawn pieces; or of two scripts that have every line; or of a broker's script that has every line of its own. What pqd
and pqx say is what the plain programs say. Prints what was tried, or the first difference, with status 1. Not all of
the scripts are tried, since each takes a process of its own."""

import json
import os
import random
import sys
from collections import Counter

import broker_script
import image
import script
from broker import ERRORS, Broker, text_of
from draw import pieces
from form import FORM
from fuzz import Different, compare, ran
from lines import lines_of, meaning

CLIENTS = 16
RECORDS = 32
CREATE = b'{"op":"create","queue":"a","kind":"log"}'
CREATE_DURABLE = b'{"op":"create","queue":"a","kind":"durable"}'
CRASH, RECOVER = b'{"op":"crash"}', b'{"op":"recover"}'
# Messages as they stand in requests and in scripts.
FIVE, GREATEST = (json.dumps(FORM.of_number(number)).encode() for number in (5, 2**32 - 1))
FIVE_TEXT, GREATEST_TEXT = (FORM.text(FORM.of_number(number)).encode() for number in (5, 2**32 - 1))

# Requests, of each kind one at least, and what is asked before them, so that they are served as they stand.
GOOD = [
    (b'{"op":"create","queue":"a","kind":"log"}', []),
    (b'{"kind":"durable","queue":"_-z09","op":"create"}', []),
    (b'{"op":"list"}', [CREATE]),
    (b'{"op":"put","client":0,"queue":"a","value":%b}' % GREATEST, [CREATE_DURABLE]),
    (b'{"op":"put","client":15,"queue":"a","number":1099511627776,"value":%b}' % FIVE, [CREATE]),
    (b'{"op":"put","client":15,"queue":"a","number":1,"value":%b}' % FIVE, [CREATE]),
    (b'{"op":"take","client":18446744073709551615,"queue":"a","number":1}', [CREATE]),
    (b'{ "op" : "take", "queue" : "abcdefghijklmnop", "client" : 10 }',
     [b'{"op":"create","queue":"abcdefghijklmnop","kind":"durable"}']),
    (b'{"op":"told","client":1,"queue":"a"}',
     [CREATE, b'{"op":"take","client":1,"queue":"a","number":1}', CRASH, RECOVER]),
    (b'{"op":"crash"}', [CREATE]),
    (b'{"op":"recover"}', [CREATE, CRASH]),
    (b'{"op":"stop"}', []),
]

SCRIPTS = [
    b"# a\n\nqueue durable 1 4096\nenq 0 %b\nstep 255 1000\nend 0\ndeq 10\nevict 18446744073709551615\ncrash\n"
    b"recover 1\nrecover\ncontent\norder\n" % GREATEST_TEXT,
    b"queue log 16 1\nenq 0 0 %b\nstep 0 1\ndeq 1 18446744073709551615\n#\nend 1\nevict 0\ncrash\nrecover 20\nrecover\n"
    b"content\norder" % FIVE_TEXT,
]
BROKER_SCRIPTS = [
    b"#\n\nbroker 1 2\nboot\nset 0 1\ncreate a log\ncreate _-9 durable 1\ncreate-step\ncreate-step 11\nfind a\nlist\n"
    b"a: enq 0 1 05\na: step 0 37\na: told 0\n_-9: deq 0\n_-9: end 0\nimage\nset 5 2\nboot\nset 5 1\nboot\nrecover 1\n"
    b"recover\nrenew a\nrecover\nrotate\nevict 5\ncrash\n",
    b"broker 1 4\ncreate a log\na: request 0 1 enq 05\na: begin 0 2 deq\na: end 0\na: request 0 2 deq\n"
    b"create b durable\nb: plain 0 enq .\nb: plain 0 deq\ncrash\na: request 0 2 enq 1f\n",
]
# Of the scripts those are tried whose change puts one of these bytes, or none, and of the others one of so many.
NEAR = b"\n 0#9"
OF_OTHERS = 96
# How many lines of pieces.
PIECES = 8000
FAULTS = {text_of({"error": ERRORS[name], "name": name}): name for name in ("BadJson", "BadRequest", "TooLong")}


def changes(text):
    """Each text that one change makes: a byte in place of another, or before it, or none there, or an end there. With
    the byte that the change puts."""
    for at in range(len(text) + 1):
        front, rest = text[:at], text[at:]
        for byte in range(256):
            yield front + bytes([byte]) + rest[1:], byte
            yield front + bytes([byte]) + rest, byte
        yield front + rest[1:], None
        yield front, None


class Batch:
    """An input of many lines, and what the plain broker replies to them."""

    def __init__(self, before):
        self.broker = Broker(CLIENTS, RECORDS)
        self.input = []
        self.replies = []
        for line in before:
            self.ask(line)
        self.begins_down = self.broker.is_down
        self.is_over = False

    def ask(self, text):
        """Of a text that has a newline in it each line is answered."""
        self.input.append(text + b"\n")
        for line in lines_of(text + b"\n"):
            request = meaning(line)
            self.replies.append(text_of(self.broker.answer(request)))
            if isinstance(request, dict) and request["op"] == "stop":
                self.is_over = True
                return

    def add(self, text):
        """The text, and then the broker is down, or ready, as it was at first. It is over where a queue or the
        directory has no room for one more: so nothing is refused for want of room."""
        self.ask(text)
        queues = self.broker.queues
        self.is_over = self.is_over or all(queues) or any(RECORDS in queue.begun for queue in queues if queue)
        if not self.is_over and self.broker.is_down != self.begins_down:
            self.ask(RECOVER if self.broker.is_down else CRASH)

    def play(self, pqd, path):
        """What pqd replies, and what its image keeps then."""
        data, wanted = b"".join(self.input), b"".join(self.replies)
        # A difference leaves its image there.
        if os.path.exists(path):
            os.remove(path)
        words = ["--clients", str(CLIENTS), "--records", str(RECORDS), "--image", path]
        compare("lines", data, (wanted, b"", 0), ran([pqd, "pipe", *words], data))
        with open(path, "rb") as file:
            kept = image.content(image.broker_of(file.read()))
        compare("lines", data, (image.content(self.broker),), (kept,))


def played(batch, pqd, path):
    """How many lines of it were no JSON, no request or too long, and how many were served."""
    batch.play(pqd, path)
    return Counter(FAULTS.get(reply, "served") for reply in batch.replies)


def try_lines(pqd, path):
    """How many texts were tried, and what became of their lines."""
    tried = Counter()
    for line, before in GOOD:
        batch = Batch(before)
        for text, _ in changes(line):
            tried["texts"] += 1
            batch.add(text)
            if batch.is_over:
                tried.update(played(batch, pqd, path))
                batch = Batch(before)
        tried.update(played(batch, pqd, path))
    return tried


def try_pieces(pqd, path):
    """What became of lines of drawn pieces, and that the broker serves behind them."""
    draw, batch = random.Random(1), Batch([CREATE])
    for _ in range(PIECES):
        batch.ask(pieces(draw))
    for line in (RECOVER, b'{"op":"told","client":0,"queue":"a"}', b'{"op":"create","queue":"last","kind":"log"}'):
        batch.ask(line)
    return played(batch, pqd, path)


def try_scripts(command, scripts, transcript):
    """How many scripts were tried, and how many of them were followed."""
    draw, tried = random.Random(1), Counter()
    for good in scripts:
        for text, byte in changes(good):
            if byte is not None and byte not in NEAR and draw.randrange(OF_OTHERS) != 0:
                continue
            wanted = transcript(text)
            compare("scripts", text, wanted, ran(command, text))
            tried["refused" if wanted[2] else "followed"] += 1
    return tried


def shown(counts):
    return "lines " + ", ".join(f"{kind} {counts[kind]}" for kind in ("served", *FAULTS.values()))


def report(part, pqd, pqx, path):
    """What was tried of a part."""
    if part == "lines":
        lines, drawn = try_lines(pqd, path), try_pieces(pqd, path)
        return f"requests {lines['texts']}: {shown(lines)}\nlines of pieces {PIECES}: {shown(drawn)}"
    if part == "scripts":
        tried = try_scripts([pqx, "run"], SCRIPTS, lambda text: script.transcript(text)[0])
    else:
        tried = try_scripts([pqx, "broker", "run"], BROKER_SCRIPTS, broker_script.transcript)
    return f"scripts {sum(tried.values())}: followed {tried['followed']}, refused {tried['refused']}"


def main(pqd, pqx, folder, part):
    try:
        print(report(part, pqd, pqx, f"{folder}/image"))
    except Different as different:
        kind, data, said = different.args
        with open(f"{folder}/difference", "wb") as file:
            file.write(data)
        print(f"{kind} differs: {said}\nthe input is {folder}/difference")
        return 1
    return 0


if __name__ == "__main__":
    sys.exit(main(*sys.argv[1:]))
