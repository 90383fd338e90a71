"""What bench/acts.sh and bench/recover.sh time: a `pqd pipe` that answers requests of its standard input. Seconds are
those of its processor, so that what else the machine does counts less.

timed_pipe.py acts PQD ROUNDS       seconds of 400 calls with few behind them and with many, of both kinds of queue
timed_pipe.py recover PQD ROUNDS    seconds of a recovery with so many items in the queue, of both kinds"""

import json
import subprocess
import sys
import threading
import time

KINDS = ("durable", "log")
# Calls of a batch, and how many batches there are: the first ones, and those with many calls behind them, are compared.
CALLS, BATCHES, COMPARED = 400, 40, 4
CLIENTS = 4


class Pipe:
    """A `pqd pipe` with one queue."""

    def __init__(self, pqd, kind, clients):
        words = [pqd, "pipe", "--clients", str(clients), "--records", "4096"]
        self.process = subprocess.Popen(words, stdin=subprocess.PIPE, stdout=subprocess.PIPE)
        self.kind, self.numbers = kind, [0] * clients
        self.seconds([{"op": "create", "queue": "a", "kind": kind}])

    def call(self, client, **request):
        """A put or a take of a client, with its next number in a log queue."""
        self.numbers[client] += 1
        number = {"number": self.numbers[client]} if self.kind == "log" else {}
        return {"client": client, "queue": "a", **number, **request}

    def put(self, client):
        return self.call(client, op="put", value=f"{self.numbers[client]:08x}")

    def take(self, client):
        return self.call(client, op="take")

    def seconds(self, requests):
        """How long these take, from the first one that is sent to the last reply."""
        data = b"".join(json.dumps(request).encode() + b"\n" for request in requests)
        sender = threading.Thread(target=self.send, args=(data,))
        begun = self.clock()
        sender.start()
        replies = [self.process.stdout.readline() for _ in requests]
        ended = self.clock()
        sender.join()
        wrong = [reply for reply in replies if b'"error"' in reply or not reply]
        if wrong:
            sys.exit(f"a request is answered {wrong[0]}")
        return ended - begun

    def clock(self):
        """The processor's seconds of the program: of Linux's clocks the one that is this process's."""
        return time.clock_gettime(~self.process.pid << 3 | 2)

    def send(self, data):
        self.process.stdin.write(data)
        self.process.stdin.flush()

    def end(self):
        self.process.stdin.close()
        self.process.wait()


def batch(pipe, clients):
    """Each client puts an item and takes one out, in turn."""
    pairs = [(client, call) for call in (Pipe.put, Pipe.take) for client in range(clients)]
    return [call(pipe, client) for _ in range(CALLS // len(pairs)) for client, call in pairs]


def acts(pqd, rounds):
    """Prints, of each kind: the kind, and the least seconds of a batch among the first ones and among the last ones."""
    least = {kind: [1e9, 1e9] for kind in KINDS}
    for _ in range(rounds):
        for kind in KINDS:
            pipe = Pipe(pqd, kind, CLIENTS)
            seconds = [pipe.seconds(batch(pipe, CLIENTS)) for _ in range(BATCHES)]
            pipe.end()
            found = min(seconds[:COMPARED]), min(seconds[-COMPARED:])
            least[kind] = [*map(min, least[kind], found)]
    for kind in KINDS:
        print(kind, CALLS, COMPARED * CALLS, (BATCHES - COMPARED) * CALLS, *least[kind])


def recover(pqd, rounds):
    """Prints, of each kind and number of items: both, and the least seconds of a recovery."""
    for kind in KINDS:
        for items in (1000, 2000, 4000):
            least = 1e9
            for _ in range(rounds):
                pipe = Pipe(pqd, kind, 1)
                pipe.seconds([pipe.put(0) for _ in range(items)])
                pipe.seconds([{"op": "crash"}])
                least = min(least, pipe.seconds([{"op": "recover"}]))
                pipe.end()
            print(kind, items, least)


if __name__ == "__main__":
    {"acts": acts, "recover": recover}[sys.argv[1]](sys.argv[2], int(sys.argv[3]))
