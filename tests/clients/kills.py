"""kills.py PQD PQX KILLS [BENT]: clients in threads, of a server that is killed (SIGKILL) so often at random moments.

Six clients put into a log queue and take from it, one by one and in batches. The server has a journal and begins again
on it each time. Now and then the broker crashes and recovers by another connection. Clients with a state file die at
random moments too, and the next process goes on. One without goes away between two calls, and begins again by what it
is told. At the end of a life, some ten kills, all is drained: no message may be lost, doubled or strange, and `pqx
check` explains what the clients saw. A call spans a kill, since it is sent again, so the recordings have no crashes.

BENT is a wrong client of bent.py: what it raises itself is left alone, so that it is caught by what it did. The last
line counts; a line before it says what is wrong.
"""

import itertools
import json
import os
import random
import subprocess
import sys
import tempfile
import threading
import time
from collections import Counter

from harness import MOMENTS, Died, Server, die_at, seeded

import bent as bent_clients
import wistaku.broker
import wistaku.link
from wistaku import Broker, InDoubt, WistakuError
from wistaku.errors import NoRoom

PLAYERS, DRAINER = range(6), 7
KILLS_OF_A_LIFE = 10
BATCH = 5


class Recorder:
    """What the clients saw, in the order in which it happened (docs/HISTORIES.md)."""

    def __init__(self):
        self.lines, self.lock = [], threading.Lock()
        self.put, self.doubted, self.got, self.seen = set(), set(), Counter(), Counter()
        self.wrong, self.raised = [], []

    def note(self, **line):
        with self.lock:
            self.lines.append(line)

    def begin(self, client, op, values):
        for at, value in enumerate(values):
            self.note(client=f"{client}.{at}", op=op, **({"value": value.decode()} if op == "put" else {}))

    def done(self, client, at, value):
        with self.lock:
            self.put.add(value)
        self.note(client=f"{client}.{at}", reply="done")

    def took(self, client, at, value):
        if value is None:
            self.note(client=f"{client}.{at}", reply="empty")
            return
        with self.lock:
            self.got[value] += 1
        self.note(client=f"{client}.{at}", reply="got", got=value.decode())

    def refused(self, client, at):
        self.note(client=f"{client}.{at}", reply="refused")

    def unknown(self, client, at, value):
        with self.lock:
            self.doubted.add(value)
        self.note(client=f"{client}.{at}", reply="unknown")

    def balance(self):
        """How many messages were lost, doubled, and got though they had not been put. One that is in doubt may be."""
        return {
            "lost": sum(it not in self.got for it in self.put),
            "doubled": sum(count > 1 for count in self.got.values()),
            "strange": len(set(self.got) - self.put - self.doubted),
        }

    def judged(self, pqx, path):
        """What `pqx check` says of all lines."""
        with open(path, "w") as file:
            file.writelines(json.dumps(it) + "\n" for it in self.lines)
        with open(path) as file:
            return subprocess.run([pqx, "check"], stdin=file, capture_output=True, text=True).stdout


class Player:
    """A client, which is made anew now and then: with a state file if it has one, and else by what it is told."""

    patience = 60.0

    def __init__(self, client, address, folder, recorder, values):
        self.client, self.address, self.recorder, self.values = client, address, recorder, values
        self.state = f"{folder}/state-{client}" if client % 2 else None
        self.batch = BATCH if client in (4, 5) else 1
        # How often it may begin again without a memory.
        self.anew = 2
        self.connect(0)
        # The last number that was answered, and what was handed out since the call before the last one.
        self.last, self.newest = 0, []

    def connect(self, last=None):
        how = {"rest": 0.002, "timeout": 20, "patience": self.patience}
        self.broker = Broker([self.address], self.client, state=self.state, **how)
        self.queue = self.broker.log("jobs", last=last)

    def turn(self):
        """A call, in which the process may die; what it was asked for, if it did."""
        is_put, count = random.random() < 0.5, random.randint(1, self.batch)
        op, asked = ("put", [next(self.values) for _ in range(count)]) if is_put else ("take", [b""] * count)
        if self.state and random.random() < 0.02:
            die_at(self.broker, random.choice(MOMENTS), random.randint(1, 2 * count))
        elif not self.state and self.anew and random.random() < 0.002:
            self.anew -= 1
            self.broker.close()
            self.connect()
            self.recorder.seen["processes without a memory"] += 1
        self.recorder.begin(self.client, op, asked)
        try:
            self.call_or_die(op, asked)
        except InDoubt as doubt:
            self.left_in_doubt(doubt, op, asked)
            raise
        self.recorder.seen["calls"] += count
        self.last = (self.queue._number or 1) - 1

    def left_in_doubt(self, doubt, op, asked):
        """There is no room for what is in doubt, nor will be: this client ends."""
        if not isinstance(doubt.__cause__, NoRoom):
            self.recorder.raised.append(f"client {self.client}: {doubt!r}")
        taken = [it.value for it in self.queue._items]
        for at, value in enumerate(asked):
            if op == "put" and at < doubt.answered:
                self.recorder.done(self.client, at, value)
            elif op == "take" and at < len(taken):
                self.recorder.took(self.client, at, taken[at])
            else:
                self.recorder.unknown(self.client, at, value)
        self.recorder.seen["ended in doubt"] += 1

    def call_or_die(self, op, asked):
        try:
            self.call(op, asked)
        except Died:
            self.broker._leave()
            self.connect()
            self.recorder.seen["processes that died"] += 1
            self.resume(op, asked)

    def call(self, op, asked):
        if op == "put":
            self.put(asked)
        else:
            self.take(len(asked))

    def put(self, values):
        answered = len(values)
        try:
            self.queue.put(values[0]) if self.batch == 1 else self.queue.put_many(values)
        except NoRoom as refused:
            answered = refused.answered
            self.recorder.seen["refused"] += 1
            time.sleep(0.01)
        self.came_to(values, answered)

    def take(self, asked):
        try:
            taken = [self.queue.take()] if self.batch == 1 else self.queue.take_many(asked)
            self.took([it for it in taken if it is not None], asked)
        except NoRoom:
            self.recorder.seen["refused"] += 1
            # What was taken before is here, and what found nothing.
            settled = [it for it in self.queue.settle() if it.op == "take"]
            self.newest = []
            for at in range(asked):
                if at < len(settled):
                    self.recorder.took(self.client, at, settled[at].value)
                else:
                    self.recorder.refused(self.client, at)
            time.sleep(0.01)

    def came_to(self, values, answered):
        """The first ones of these values were put, and the others were not."""
        for at, value in enumerate(values):
            self.recorder.done(self.client, at, value) if at < answered else self.recorder.refused(self.client, at)

    def took(self, taken, asked):
        """What was got, by as many takes and one that found nothing if there were fewer than were asked for."""
        self.newest = taken
        for at in range(asked):
            if at <= len(taken):
                self.recorder.took(self.client, at, taken[at] if at < len(taken) else None)
            else:
                self.recorder.refused(self.client, at)

    def resume(self, op, asked):
        """What the process that died had under way: it came to this, or nothing of it was made."""
        settled = self.queue.settle()
        new = [it for it in settled if it.number > self.last]
        again = [it.value for it in settled if it.number <= self.last and it.op == "take" and it.value is not None]
        if not set(again) <= set(self.newest):
            self.recorder.wrong.append(f"client {self.client} is handed {again} again, and had {self.newest}")
        if op == "put":
            if [it.value for it in new] != asked[: len(new)]:
                self.recorder.wrong.append(f"client {self.client} put {asked}, and is told {new}")
            self.came_to(asked, len(new))
            return
        taken = [it.value for it in new if it.value is not None]
        for at in range(len(asked)):
            if at < len(new):
                self.recorder.took(self.client, at, taken[at] if at < len(taken) else None)
            else:
                self.recorder.refused(self.client, at)
        self.newest = taken

    def play(self, stop):
        try:
            while not stop.is_set():
                self.turn()
        except InDoubt:
            pass
        except (WistakuError, OSError) as error:
            self.recorder.raised.append(f"client {self.client}: {error!r}")


class Life:
    """A server's life over some kills."""

    def __init__(self, pqd, pqx, folder):
        self.pqx, self.folder = pqx, folder
        records = random.choice([["--records", "512"], ["--records", "64", "--renew"], ["--records", "256", "--renew"]])
        policy = random.choice(["always", "second", "never"])
        self.server = Server(pqd, folder, "--clients", "8", "--sync", policy, *records)
        self.recorder = Recorder()
        with Broker([self.server.address], client=DRAINER) as broker:
            broker.log("jobs", create=True)
        values = (b"%d" % it for it in itertools.count())
        self.players = [Player(it, self.server.address, folder, self.recorder, values) for it in PLAYERS]

    def goes_down(self):
        """At a random moment, when some calls more were answered, it is killed, or crashes."""
        calls, until = self.recorder.seen["calls"] + random.randint(1, 100), time.monotonic() + 2
        while self.recorder.seen["calls"] < calls and time.monotonic() < until and not self.recorder.wrong:
            time.sleep(random.uniform(0, 0.005))
        if random.random() < 0.2:
            self.server.recovers()
            self.recorder.seen["crashes"] += 1
            return
        self.server.kill()
        self.recorder.seen["kills"] += 1
        time.sleep(random.choice([0, 0, random.uniform(0, 0.02)]))
        self.server.start()

    def run(self, kills):
        stop = threading.Event()
        threads = [threading.Thread(target=it.play, args=(stop,)) for it in self.players]
        [it.start() for it in threads]
        while self.recorder.seen["kills"] < kills and not self.recorder.wrong:
            self.goes_down()
        stop.set()
        [it.join() for it in threads]
        for it in self.players:
            it.broker._leave()
        self.drain()
        self.server.kill()
        return self.judged()

    def drain(self):
        with Broker([self.server.address], client=DRAINER) as broker:
            queue, taken = broker.log("jobs", last=0), [b""]
            while taken:
                taken = queue.take_many(100)
                for value in taken:
                    self.recorder.begin(DRAINER, "take", [b""])
                    self.recorder.took(DRAINER, 0, value)
        self.recorder.begin(DRAINER, "take", [b""])
        self.recorder.took(DRAINER, 0, None)

    def judged(self):
        """What was seen, and what is wrong."""
        recorder, wrong = self.recorder, self.recorder.wrong
        recorder.seen.update(recorder.balance())
        wrong += [f"{count} messages {what}" for what, count in recorder.balance().items() if count]
        said = recorder.judged(self.pqx, f"{self.folder}/recording")
        if said.startswith("explained:"):
            recorder.seen["lines explained"] += len(recorder.lines)
        else:
            wrong.append(f"pqx check: {said}")
        return recorder.seen, wrong


def main(pqd, pqx, kills, bent=None):
    # The server is back soon.
    wistaku.link.LONGEST_REST = 0.02
    begin, seen, wrong, seed = time.monotonic(), Counter(), [], seeded()
    if bent is not None:
        wistaku.broker.LogQueue = bent_clients.BENT[bent]
        Player.patience = 3.0
    while seen["kills"] < int(kills) and not wrong:
        with tempfile.TemporaryDirectory() as folder:
            life = Life(pqd, pqx, folder)
            of_life, wrong = life.run(min(KILLS_OF_A_LIFE, int(kills) - seen["kills"]))
        wrong += life.recorder.raised if bent is None else []
        seen += of_life
    for it in wrong:
        print(f"WRONG: {it}")
    counts = ["kills", "crashes", "calls", "processes that died", "processes without a memory", "refused",
        "ended in doubt", "lines explained", "lost", "doubled", "strange"]
    print(", ".join(f"{it} {seen[it]}" for it in counts), f"in {time.monotonic() - begin:.0f} s, SEED={seed}")
    return 1 if wrong else 0


if __name__ == "__main__":
    sys.exit(main(*sys.argv[1:]))
