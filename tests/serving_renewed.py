"""serving_renewed.py PQD [OPTION..]: connections to `pqd serve` with these options, as `--renew`, beside plain lists.

Each queue is short at every moment, and its clients make far more calls than they have records. So a call is told
NoRoom where no queue is renewed, and never else. First each connection has queues of its own: each reply is the one of
a list that serves the same calls, also where the whole broker crashes and recovers meanwhile. Then all share one queue
of each kind: each item comes out once, nothing is left, and no item overtakes another."""

import bisect
import collections
import json
import random
import socket
import subprocess
import sys
import threading
import time

CONNECTIONS = 8
CRASHED = {"interrupted", "NotReady"}


class Wrong(Exception):
    """What should hold, and does not."""


def require(holds, *what):
    if not holds:
        raise Wrong(" ".join(map(str, what)))


class Connection:
    """A client's connection: requests are sent together, and their replies read in turn."""

    def __init__(self, port, client=0):
        self.client = client
        self.socket = socket.create_connection(("127.0.0.1", port))
        self.socket.setsockopt(socket.IPPROTO_TCP, socket.TCP_NODELAY, 1)
        self.replies = self.socket.makefile("rb")

    def ask(self, *requests):
        lines = [json.dumps({**request, "client": self.client} if "queue" in request and "kind" not in request
                            else request) for request in requests]
        self.socket.sendall("".join(line + "\n" for line in lines).encode())
        return [json.loads(self.replies.readline()) for _ in requests]

    def close(self):
        self.replies.close()
        self.socket.close()


class Server:
    """A running `pqd serve`, with so many records a client."""

    running = []

    def __init__(self, records):
        words = [sys.argv[1], "serve", *sys.argv[2:], "--clients", CONNECTIONS, "--records", records, "--port", 0,
                 "--workers", CONNECTIONS + 1]
        self.process = subprocess.Popen(list(map(str, words)), stdout=subprocess.PIPE)
        self.running.append(self.process)
        self.port = int(self.process.stdout.readline().decode().rsplit(":", 1)[1])

    def ask(self, **request):
        """The reply of a connection for this request alone."""
        link = Connection(self.port)
        [reply] = link.ask(request)
        link.close()
        return reply

    def create(self, queue, kind):
        reply = self.ask(op="create", queue=queue, kind=kind)
        require("slot" in reply, "create", queue, reply)

    def stop(self):
        """It ends once all connections have."""
        self.ask(op="stop")
        require(self.process.wait(60) == 0, "the server ended with", self.process.returncode)


def in_threads(task, count=CONNECTIONS):
    """Does a task as often, each time in a thread of its own. The first thing that went wrong is raised."""
    wrong = []

    def run(number):
        try:
            task(number)
        except Exception as fault:
            wrong.append(fault)

    threads = [threading.Thread(target=run, args=(number,)) for number in range(count)]
    for thread in threads:
        thread.start()
    for thread in threads:
        thread.join()
    if wrong:
        raise wrong[0]


def word_of(reply):
    """What a reply says, in a word, or the item that was got."""
    return reply.get("got", reply.get("reply", reply.get("name")))


class Own:
    """A connection with a queue for itself, beside a list."""

    def __init__(self, server, client, kind):
        self.link = Connection(server.port, client)
        self.queue, self.kind, self.list, self.number = f"q{client}", kind, collections.deque(), 0
        self.draw = random.Random(client)
        server.create(self.queue, kind)

    def request(self, put):
        call = {"op": "put", "value": f"{self.draw.randrange(1 << 32):08x}"} if put else {"op": "take"}
        self.number += 1
        return {**call, "queue": self.queue, **({"number": self.number} if self.kind == "log" else {})}

    def answer(self, request):
        """The reply, once there is one: a numbered call that a crash met is sent again."""
        while True:
            [reply] = self.link.ask(request)
            if self.kind != "log" or word_of(reply) not in CRASHED:
                return reply

    def wanted(self, request):
        if request["op"] == "put":
            self.list.append(request["value"])
            return "done"
        return self.list.popleft() if self.list else "empty"

    def play(self, calls):
        for _ in range(calls):
            request = self.request(len(self.list) < 12 and self.draw.random() < 0.5)
            found, wanted = word_of(self.answer(request)), self.wanted(request)
            require(found == wanted, request, "is answered", found, "and not", wanted)
            if self.kind == "log" and self.draw.random() < 0.1:
                again = word_of(self.answer(request))
                require(again == wanted, request, "is answered", again, "when it is sent again")
        self.link.close()


def own(kinds, calls, crashes):
    """Each connection has a queue for itself; an operator stops the broker so often meanwhile."""
    server = Server(8)
    players = [Own(server, client, kinds[client % len(kinds)]) for client in range(CONNECTIONS)]

    def act(number):
        if number < CONNECTIONS:
            players[number].play(calls)
            return
        for _ in range(crashes):
            time.sleep(0.02)
            replies = word_of(server.ask(op="crash")), word_of(server.ask(op="recover"))
            require(replies == ("crashed", "ready"), *replies)

    in_threads(act, CONNECTIONS + 1)
    server.stop()


class Item:
    """When an item was put and taken: each from before to after the call."""

    def __init__(self, put):
        self.put, self.taken = put, None


def takes_in_order(items):
    """No item was put after another one was, and taken before that was."""
    by_end = sorted(items, key=lambda item: item.put[1])
    latest, ends = [], [item.put[1] for item in by_end]
    for item in by_end:
        latest.append(max(item.taken[0], latest[-1] if latest else 0))
    for item in items:
        before = bisect.bisect_left(ends, item.put[0])
        require(before == 0 or latest[before - 1] <= item.taken[1], "an item was overtaken")


class Shared:
    """A queue that all connections use, with what they put and took."""

    def __init__(self, server, kind):
        self.port, self.kind, self.items = server.port, kind, {}
        server.create(kind, kind)

    def requests(self, client, pairs, number):
        """So many pairs of a put and a take, and the values of the puts."""
        values = [f"{client:02x}{number + pair:012x}" for pair in range(pairs)]
        for value in values:
            numbers = [{"number": 2 * int(value[2:], 16) + turn} if self.kind == "log" else {} for turn in (1, 2)]
            yield {"op": "put", "queue": self.kind, "value": value, **numbers[0]}
            yield {"op": "take", "queue": self.kind, **numbers[1]}

    def play(self, client, pairs, at_once):
        link = Connection(self.port, client)
        for number in range(0, pairs, at_once):
            requests = list(self.requests(client, at_once, number))
            begun = time.perf_counter()
            for request in requests[::2]:
                self.items[request["value"]] = Item([begun, None])
            replies = link.ask(*requests)
            self.note(requests, replies, begun, time.perf_counter())
        link.close()

    def note(self, requests, replies, begun, ended):
        for request, reply in zip(requests, replies):
            word = word_of(reply)
            if request["op"] == "put":
                require(word == "done", request, "is answered", word)
                self.items[request["value"]].put[1] = ended
            else:
                # A connection puts before it takes, so there is an item.
                item = self.items.get(word)
                require(item and not item.taken, request, "is answered", word)
                item.taken = (begun, ended)


def shared(kind, records, pairs, at_once):
    """All connections use one queue, each with so many pairs of a put and a take in flight."""
    server = Server(records)
    queue = Shared(server, kind)
    in_threads(lambda client: queue.play(client, pairs, at_once))
    server.stop()
    require(len(queue.items) == CONNECTIONS * pairs, len(queue.items), "items")
    require(all(item.taken for item in queue.items.values()), "an item never came out")
    takes_in_order(list(queue.items.values()))


def main():
    own(["durable", "log"], 1500, 0)
    print("queues of their own, 8 records: as lists")
    own(["log"], 600, 10)
    print("queues of their own, 8 records, with crashes: as lists")
    for kind in "durable", "log":
        shared(kind, 8, 1500, 1)
        print(f"a {kind} queue of all, 8 records: each item once, none overtaken")
        shared(kind, 4096, 4096, 32)
        print(f"a {kind} queue of all, 4096 records: each item once, none overtaken")


try:
    main()
except Wrong as wrong:
    print("wrong:", wrong)
    sys.exit(1)
finally:
    for process in Server.running:
        process.kill()
