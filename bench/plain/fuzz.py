"""fuzz.py PQD PQX SECONDS SEED FOLDER: what bench/fuzz.sh does."""

import os
import random
import subprocess
import sys
import time
from collections import Counter

import broker_points
import broker_script
import broker_scripts
import draw as lines
import image
import images
import migration
import points
import script
import scripts
from broker import Broker, replies


class Different(Exception):
    """The program and the plain one differ: the kind, the input, and both answers."""


def ran(command, data):
    """Standard output, standard error and the status."""
    done = subprocess.run(command, input=data, capture_output=True, timeout=300)
    return done.stdout, done.stderr, done.returncode


def first_difference(wanted, found):
    """Where two texts differ first, line by line."""
    wanted, found = wanted.split(b"\n"), found.split(b"\n")
    for number, (one, other) in enumerate(zip(wanted, found), 1):
        if one != other:
            return f"line {number}: plain {one}, program {other}"
    return f"plain has {len(wanted)} lines, the program {len(found)}"


def compare(kind, data, wanted, found):
    """Standard output, standard error and status, or whatever else they came to."""
    for one, other in zip(wanted, found):
        if one != other:
            is_text = isinstance(one, bytes)
            raise Different(kind, data, first_difference(one, other) if is_text else f"plain {one}, program {other}")


class Fuzz:
    def __init__(self, pqd, pqx, folder):
        self.pqd = pqd
        self.pqx = pqx
        self.path = f"{folder}/image"
        self.tried = Counter()
        # The image of an earlier turn.
        self.left = None

    def serve(self, kind, broker, data, words):
        """The same input to both. Then the image keeps what the plain broker holds."""
        wanted = replies(broker, data)
        compare(kind, data, (wanted, b"", 0), ran([self.pqd, "pipe", *words, "--image", self.path], data))
        with open(self.path, "rb") as file:
            self.left = file.read()
        kept = image.content(image.broker_of(self.left))
        compare(kind, data, (image.content(broker),), (kept,))
        self.tried["lines"] += len(wanted.splitlines())

    def play_lines(self, draw):
        """An input on a new broker, and another one on the image that it leaves."""
        clients, records = draw.choice([(1, 1), (1, 4), (2, 3), (2, 60), (3, 9), (4, 40), (16, 2)])
        broker = Broker(clients, records)
        first = lines.input_of(draw, clients, draw.randrange(1, 400))
        self.serve("lines", broker, first, ["--clients", str(clients), "--records", str(records)])
        broker.restart()
        second = lines.input_of(draw, clients, draw.randrange(1, 100))
        self.serve("lines on an image", broker, second, [])
        os.remove(self.path)

    def play_script(self, draw):
        """A script's transcript, whose orders explain it."""
        text = scripts.drawn_script(draw)
        wanted, machine = script.transcript(text)
        self.tried["scripts"] += 1
        self.tried["lines of transcripts"] += wanted[0].count(b"\n")
        found = ran([self.pqx, "run"], text)
        broken = script.check_orders(found[0])
        if broken:
            raise Different("order", text, broken)
        compare("script", text, wanted, found)

    def play_broker_script(self, draw):
        """A script of a whole broker: its transcript, in which the orders explain what came before them."""
        text = broker_scripts.drawn_script(draw)
        wanted = broker_script.transcript(text)
        self.tried["scripts of brokers"] += 1
        self.tried["lines of transcripts"] += wanted[0].count(b"\n")
        found = ran([self.pqx, "broker", "run"], text)
        broken = broker_script.check_orders(found[0])
        if broken:
            raise Different("order", text, broken)
        compare("broker script", text, wanted, found)

    def play_report(self, draw):
        """A crash at each point of a short script, or each stopped call alone."""
        text = scripts.drawn_script(draw)
        while len(text) > 500:
            text = scripts.drawn_script(draw)
        drawn = ["points", "--evict", "drawn", "--draw", str(draw.randrange(2**64))]
        command = draw.choice([["points"], ["points", "--evict", "all"], drawn, drawn, ["alone"]])
        if command[0] == "points" and draw.random() < 0.5:
            command = [*command, "--from", str(draw.randrange(60)), "--count", str(draw.randrange(60))]
        wanted = points.report(text, command)
        self.tried["scripts"] += 1
        self.tried["points"] += wanted[0].count(b"\n")
        compare(" ".join(command), text, wanted, ran([self.pqx, *command], text))

    def play_broker_report(self, draw):
        """A crash of a whole broker at each point of a short script: each queue is there, and explained."""
        text = broker_scripts.drawn_script(draw)
        while len(text) > 300:
            text = broker_scripts.drawn_script(draw)
        options = draw.choice([[], ["--evict", "all"], ["--evict", "drawn", "--draw", str(draw.randrange(2**64))]])
        command = ["broker", "points", *options]
        wanted = broker_points.report(text, command)
        self.tried["scripts of brokers"] += 1
        self.tried["points"] += wanted[0].count(b"\n")
        compare(" ".join(command), text, wanted, ran([self.pqx, *command], text))

    def play_image(self, draw):
        """An image is refused, or what begins on it is the plain broker that it keeps."""
        data = images.drawn_image(draw, self.left)
        with open(self.path, "wb") as file:
            file.write(data)
        self.tried["images"] += 1
        try:
            broker = migration.booted(data)
        except image.Broken as broken:
            self.refuse(data, str(broken))
            return
        self.tried["images served"] += 1
        questions = questions_of(broker) + lines.input_of(draw, broker.clients, draw.randrange(40))
        wanted = replies(migration.booted(data), questions)
        found = ran([self.pqd, "pipe", "--image", self.path], questions)
        compare("image", data, (wanted, b"", 0), found)
        os.remove(self.path)

    def refuse(self, data, rule):
        codes = {"BadMagic": 2, "BadCount": 3, "Truncated": 4, "TrailingBytes": 5}
        self.tried[f"refused {rule}"] += 1
        said = f"pqd: {codes[rule]} {rule}\n" if rule in codes else "pqd: 29 Damaged\n"
        found = ran([self.pqd, "pipe", "--image", self.path], b'{"op":"list"}\n')
        compare(f"image, {rule}", data, (b"", said.encode(), 1), found)
        with open(self.path, "rb") as file:
            compare(f"image, {rule}", data, (data,), (file.read(),))
        os.remove(self.path)


def questions_of(broker):
    """What each client is told, and all values, as far as clients have calls left."""
    asked = ['{"op":"list"}']
    for queue in filter(None, broker.queues):
        for client in range(broker.clients):
            asked.append(f'{{"op":"told","client":{client},"queue":"{queue.name}"}}')
            last = queue.last[client]
            begin = 1 if last is None else last[0]
            for number in range(begin, begin + broker.records + 2):
                numbered = f',"number":{min(number, 2**40)}' if queue.kind == "log" else ""
                asked.append(f'{{"op":"take","client":{client},"queue":"{queue.name}"{numbered}}}')
    return "\n".join(asked + ['{"op":"crash"}', '{"op":"recover"}', ""]).encode()


def turns(fuzz, seed, until):
    """Turns until the time is over, each drawn by its own seed; each kind comes once at least."""
    plays = [
        fuzz.play_lines, fuzz.play_image, fuzz.play_script, fuzz.play_report, fuzz.play_broker_script, fuzz.play_image,
        fuzz.play_script, fuzz.play_broker_report,
    ]
    turn = 0
    while turn < len(plays) or time.monotonic() < until:
        draw = random.Random(f"{seed} {turn}")
        play = plays[turn % len(plays)]
        try:
            play(draw)
        except Different as different:
            kind, data, said = different.args
            kept = f"{os.path.dirname(fuzz.path)}/difference"
            with open(kept, "wb") as file:
                file.write(data)
            print(f"{kind} differs at seed {seed}, turn {turn}: {said}\nthe input is {kept}")
            return 1
        turn += 1
    return 0


def main(pqd, pqx, seconds, seed, folder):
    script.test()
    fuzz = Fuzz(pqd, pqx, folder)
    status = turns(fuzz, seed, time.monotonic() + float(seconds))
    tried = fuzz.tried
    rules = ", ".join(f"{rule[8:]} {count}" for rule, count in sorted(tried.items()) if rule.startswith("refused "))
    print(f"lines of transcripts {tried['lines of transcripts']}, points {tried['points']}")
    print(f"images served {tried['images served']}, refused: {rules or 'none'}")
    print(f"scripts of brokers {tried['scripts of brokers']}")
    print(f"scripts {tried['scripts']}, lines {tried['lines']}, images {tried['images']}, differences {status}")
    return status


if __name__ == "__main__":
    sys.exit(main(*sys.argv[1:]))
