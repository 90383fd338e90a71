"""load.py PQD MINUTES: what bench/load.sh does."""

import json
import multiprocessing
import os
import random
import socket
import subprocess
import sys
import tempfile
import time
from collections import Counter

import histories
from histories import Put, Take

PLAYERS = 8
CLIENTS = 16
RECORDS = int(os.environ.get("RECORDS", 4096))
KINDS = {f"q{n}": "durable" if n % 2 == 0 else "log" for n in range(8)}


class Different(Exception):
    """What no right server does."""


class Connection:
    """A connection, by which one request after another is answered."""

    def __init__(self, port):
        self.socket = socket.create_connection(("127.0.0.1", port))
        self.socket.setsockopt(socket.IPPROTO_TCP, socket.TCP_NODELAY, 1)
        self.replies = self.socket.makefile("rb")

    def ask(self, **request):
        self.socket.sendall(json.dumps(request).encode() + b"\n")
        line = self.replies.readline()
        if not line.endswith(b"\n"):
            raise Different(f"no reply to {request}, but {line}")
        return json.loads(line)

    def close(self):
        self.replies.close()
        self.socket.close()


class Server:
    """A running `pqd serve`, begun as `started` says."""

    def __init__(self, pqd, image, records=RECORDS, options=(), **started):
        # A worker for each player, and for whoever crashes the broker meanwhile.
        words = [pqd, "serve", "--clients", str(CLIENTS), "--records", str(records), "--port", "0"]
        words += ["--workers", str(PLAYERS + 1)]
        self.process = subprocess.Popen([*words, "--image", image, *options], stdout=subprocess.PIPE, **started)
        self.listen()

    def listen(self):
        line = self.process.stdout.readline().decode()
        if not line.startswith("listening "):
            raise Different(f"the server does not listen: {line}")
        self.port = int(line.rsplit(":", 1)[1])

    def stop(self):
        control = Connection(self.port)
        control.ask(op="stop")
        control.close()
        try:
            status = self.process.wait(120)
        except subprocess.TimeoutExpired:
            self.process.kill()
            raise Different("the server goes on after a stop") from None
        if status != 0:
            raise Different(f"the server ended with status {status}")


class Player:
    """A client that puts and takes at random, and keeps its history."""

    def __init__(self, client):
        self.client = client
        self.puts = {queue: [] for queue in KINDS}
        self.takes = {queue: [] for queue in KINDS}
        # Queues where the client has room for calls.
        self.open = sorted(KINDS)
        # The next number in each log queue.
        self.numbers = dict.fromkeys(KINDS, 1)
        self.count = 0
        self.seen = Counter()

    def request(self, queue, is_put):
        request = {"op": "put" if is_put else "take", "client": self.client, "queue": queue}
        if is_put:
            self.count += 1
            request["value"] = f"{self.client << 28 | self.count:08x}"
        if KINDS[queue] == "log":
            request["number"] = self.numbers[queue]
        return request

    def told(self, connection, queue):
        """What the client is told in the queue, once the broker is ready."""
        while True:
            told = connection.ask(op="told", client=self.client, queue=queue)
            if told.get("name") != "NotReady":
                return told
            time.sleep(0.001)

    def answered(self, connection, request):
        """The reply to a request, once the broker is ready; in doubt a log queue's number is sent again."""
        while True:
            reply = connection.ask(**request)
            if reply.get("name") != "NotReady" and not ("number" in request and reply.get("reply") == "interrupted"):
                return reply
            self.seen[reply.get("name", "sent again")] += 1
            time.sleep(0.001)

    def note_take(self, queue, value, begin):
        self.takes[queue].append(Take(value, begin, time.monotonic_ns()))

    def note_interrupted_take(self, connection, queue, begin):
        """Of a durable queue: what the client is told next is of this take, where it is a value that is new to it."""
        told = self.told(connection, queue)
        self.seen["told " + str(told.get("row"))] += 1
        if told.get("row") == "got" and all(take.value != told["got"] for take in self.takes[queue]):
            self.note_take(queue, told["got"], begin)

    def note(self, connection, request, reply, begin):
        """Keeps what became of a call."""
        queue, value, kind = request["queue"], request.get("value"), reply.get("reply", reply.get("name"))
        self.seen[kind] += 1
        if kind == "NoRoom":
            self.open.remove(queue)
            return
        self.numbers[queue] += 1
        if value is not None and kind in ("done", "interrupted"):
            self.puts[queue].append(Put(value, begin, time.monotonic_ns(), kind == "done"))
        elif value is None and kind in ("got", "empty"):
            self.note_take(queue, reply.get("got"), begin)
        elif value is None and kind == "interrupted":
            self.note_interrupted_take(connection, queue, begin)
        else:
            raise Different(f"{request} was answered {reply}")

    def call(self, connection, queue, is_put):
        """Makes a call, and answers the reply."""
        request = self.request(queue, is_put)
        begin = time.monotonic_ns()
        reply = self.answered(connection, request)
        self.note(connection, request, reply, begin)
        return reply


def play(player, port, until, calls):
    """Makes at most so many calls, and answers the player with what it saw."""
    connection = Connection(port)
    for _ in range(calls):
        if not player.open or time.monotonic() > until:
            break
        player.call(connection, random.choice(player.open), random.random() < 0.5)
    connection.close()
    return player


def crash_now_and_then(port, ended):
    """Crashes and recoveries until the players have ended, when the broker is ready. How many there were."""
    connection, crashes = Connection(port), 0
    while not ended():
        time.sleep(random.uniform(0.05, 0.5))
        connection.ask(op="crash")
        time.sleep(random.uniform(0, 0.01))
        reply = connection.ask(op="recover")
        if reply != {"reply": "ready"}:
            raise Different(f"recover was answered {reply}")
        crashes += 1
    connection.close()
    return crashes


def play_all(pool, players, port, until):
    """Half of the calls that each player can make, with crashes. The players as they are then, and the crashes."""
    half = len(KINDS) * RECORDS // 2
    playing = pool.starmap_async(play, [(player, port, until, half) for player in players])
    crashes = crash_now_and_then(port, playing.ready)
    return playing.get(), crashes


def drain(port):
    """Takes all that is left. The players that did it."""
    connection, drainers = Connection(port), [Player(client) for client in range(PLAYERS, CLIENTS)]
    for queue in KINDS:
        reply = None
        for drainer in drainers:
            while reply != {"reply": "empty"} and queue in drainer.open:
                reply = drainer.call(connection, queue, False)
        if reply != {"reply": "empty"}:
            raise Different(f"{queue} cannot be drained: {reply}")
    connection.close()
    return drainers


def create_queues(port):
    connection = Connection(port)
    for queue, kind in KINDS.items():
        connection.ask(op="create", queue=queue, kind=kind)
    connection.close()


def check(players):
    """Each queue's history is explained."""
    for queue in KINDS:
        puts = [put for player in players for put in player.puts[queue]]
        takes = [take for player in players for take in player.takes[queue]]
        broken = histories.difference(puts, takes)
        if broken:
            raise Different(f"{queue} ({KINDS[queue]}): {broken}")


def keeps_images(pqd, image):
    """Whether the server leaves an image when it stops."""
    Server(pqd, image).stop()
    if not os.path.exists(image):
        return False
    os.remove(image)
    return True


def play_round(pqd, image, with_image, pool, until):
    """One server's life, with a restart on its image in the middle where it has one. What was seen."""
    players, seen = [Player(client) for client in range(PLAYERS)], Counter()
    server = Server(pqd, image)
    try:
        create_queues(server.port)
        players, crashes = play_all(pool, players, server.port, until)
        seen["crashes"] += crashes
        if with_image:
            server.stop()
            server = Server(pqd, image)
            seen["restarts on an image"] += 1
        players, crashes = play_all(pool, players, server.port, until)
        seen["crashes"] += crashes
        players += drain(server.port)
        server.stop()
    finally:
        server.process.kill()
    check(players)
    return seen + sum((player.seen for player in players), Counter())


def main(pqd, minutes):
    histories.test()
    seen, until = Counter(), time.monotonic() + 60 * float(minutes)
    context = multiprocessing.get_context("fork")
    with tempfile.TemporaryDirectory() as folder, context.Pool(PLAYERS) as pool:
        image = f"{folder}/image"
        with_image = keeps_images(pqd, image)
        while time.monotonic() < until:
            seen += play_round(pqd, image, with_image, pool, until)
            seen["servers"] += 1
            if with_image:
                os.remove(image)
    print(", ".join(f"{kind} {count}" for kind, count in sorted(seen.items())))
    print("nothing is lost, nothing doubled, and an order explains each queue's history")


if __name__ == "__main__":
    try:
        main(*sys.argv[1:])
    except (Different, OSError) as difference:
        print(f"different: {difference}")
        sys.exit(1)
