"""batches.py PQD KILLS: long batches of puts, whose server is killed (SIGKILL) so often at random moments.

Each client puts its messages in batches of up to 400, half of the clients with a state file, whose process dies now
and then. At the end of a life all is taken, by one client after another: of each client every message, once, in the
order of its puts.
"""

import random
import sys
import tempfile
import threading
import time

from harness import MOMENTS, Died, Server, die_at, seeded

import wistaku.link
from wistaku import Broker

CLIENTS, MESSAGES = 4, 1000


class Producer:
    def __init__(self, client, address, folder):
        self.client, self.address = client, address
        self.state = f"{folder}/state-{client}" if client % 2 else None
        self.put, self.deaths = 0, 0
        self.connect()

    def connect(self):
        self.broker = Broker([self.address], self.client, state=self.state, rest=0.002, timeout=20)
        self.queue = self.broker.log("jobs", last=0)

    def batch(self):
        count = min(random.randint(1, 400), MESSAGES - self.put)
        values = [b"%d:%d" % (self.client, self.put + it) for it in range(count)]
        if self.state and random.random() < 0.3:
            die_at(self.broker, random.choice(MOMENTS), random.randint(1, count))
        try:
            self.queue.put_many(values)
            self.put += count
        except Died:
            self.deaths += 1
            self.broker._leave()
            self.connect()
            settled = self.queue.settle()
            # Of the batch that was under way all is put by now, or nothing.
            self.put += count if settled and settled[-1].value == values[-1] else 0

    def play(self):
        while self.put < MESSAGES:
            self.batch()
        self.broker._leave()


def life(pqd, folder, kills):
    """How many kills there were, how many processes died, and what is wrong."""
    server = Server(pqd, folder, "--clients", "8", "--records", "1024")
    with Broker([server.address], client=7) as broker:
        broker.log("jobs", create=True)
    producers = [Producer(it, server.address, folder) for it in range(CLIENTS)]
    threads = [threading.Thread(target=it.play) for it in producers]
    [it.start() for it in threads]
    killed = 0
    while any(it.is_alive() for it in threads):
        time.sleep(random.uniform(0, 0.03))
        if killed < kills:
            server.kill()
            server.start()
            killed += 1
    [it.join() for it in threads]
    taken = [it.split(b":") for client in range(CLIENTS, 2 * CLIENTS) for it in drained(server, client)]
    server.kill()
    wrong = []
    for it in range(CLIENTS):
        found = [int(number) for client, number in taken if int(client) == it]
        if found != list(range(MESSAGES)):
            lost, doubled = set(range(MESSAGES)) - set(found), len(found) - len(set(found))
            wrong.append(f"of client {it} {len(lost)} lost, {doubled} doubled, or out of order")
    return killed, sum(it.deaths for it in producers), wrong


def drained(server, client):
    """What this client takes, as many as it has records for."""
    with Broker([server.address], client) as broker:
        return broker.log("jobs", last=0).take_many(MESSAGES + 1)


def main(pqd, kills):
    wistaku.link.LONGEST_REST = 0.02
    begin, killed, died, wrong, lives, seed = time.monotonic(), 0, 0, [], 0, seeded()
    while killed < int(kills) and not wrong:
        with tempfile.TemporaryDirectory() as folder:
            of_life, deaths, wrong = life(pqd, folder, min(10, int(kills) - killed))
        killed, died, lives = killed + of_life, died + deaths, lives + 1
    for it in wrong:
        print(f"WRONG: {it}")
    said = "not each once and in order" if wrong else "each once and in order"
    print(f"kills {killed}, processes that died {died}, messages {lives * CLIENTS * MESSAGES}, {said}", end=" ")
    print(f"in {time.monotonic() - begin:.0f} s, SEED={seed}")
    return 1 if wrong else 0


if __name__ == "__main__":
    sys.exit(main(*sys.argv[1:]))
