#!/usr/bin/env python3
"""etcd.py PQD [ROUNDS [SECONDS]]: appends and pairs a second of `pqd serve` with its journal in etcd, beside a file with
`--sync always`, and beside one plain writer of the same transactions, as long as pqd's. In turns, over three members of
etcd on this machine; the median of the rounds (5, of 1.2 s). Printed, not tested.

An append is what one piece of the journal is: with one connection and one request at a time a put is one, and so is a
take. The plain writer puts pieces of so many bytes as pqd's had, one at a time, and each compares the tail and puts the
next one, as pqd's do. A pair is a put and a take of a durable queue (bench/client).
"""
import base64
import json
import os
import pathlib
import socket
import statistics
import subprocess
import sys
import tempfile
import threading
import time

TOP = pathlib.Path(__file__).resolve().parents[1]
sys.dont_write_bytecode = True
sys.path.insert(0, str(TOP / "tests/etcd"))
from members import Members, asked

LOADS = (1, 1), (1, 64), (8, 1), (8, 64)
# Of a load its appends are counted but for so much at its beginning and at its end.
MARGIN = 0.2
# A client of pqd has room for 8 times 4,096 calls.
PAIRS = 16_000


def b64(text):
    return base64.b64encode(text).decode()


class Writer:
    """Puts pieces behind one another, in a log of its own."""

    def __init__(self, port, name):
        self.connection = socket.create_connection(("127.0.0.1", port))
        self.connection.setsockopt(socket.IPPROTO_TCP, socket.TCP_NODELAY, 1)
        self.lines, self.name, self.count = self.connection.makefile("rb", 1 << 16), name, 0
        self.ask("/v3/kv/txn", {"compare": [], "success": [self.put("tail", self.tail())], "failure": []})

    def tail(self):
        return f"1 {self.count} 127.0.0.1:7070/0123456789abcdef".encode()

    def put(self, key, value):
        return {"request_put": {"key": b64(f"{self.name}/{key}".encode()), "value": b64(value)}}

    def ask(self, path, request):
        body = json.dumps(request, separators=(",", ":")).encode()
        head = f"POST {path} HTTP/1.1\r\nHost: a\r\nContent-Type: application/json\r\nContent-Length: {len(body)}\r\n\r\n"
        self.connection.sendall(head.encode() + body)
        length = 0
        while line := self.lines.readline().strip():
            if line.lower().startswith(b"content-length:"):
                length = int(line.split(b":")[1])
        answer = json.loads(self.lines.read(length))
        assert answer.get("succeeded"), answer

    def append(self, piece):
        tail = b64(f"{self.name}/tail".encode())
        compare = {"key": tail, "target": "VALUE", "result": "EQUAL", "value": b64(self.tail())}
        key = f"{1:016x}/{self.count:016x}"
        self.count += 1
        self.ask("/v3/kv/txn", {"compare": [compare], "success": [self.put(key, piece), self.put("tail", self.tail())],
                                "failure": [{"request_range": {"key": tail}}]})

    def rate(self, size, seconds):
        """Appends a second of pieces of so many bytes."""
        piece, begun, first = os.urandom(size), time.monotonic(), self.count
        while time.monotonic() - begun < seconds:
            self.append(piece)
        return (self.count - first) / (time.monotonic() - begun)


class Bench:
    def __init__(self, pqd, folder, seconds):
        self.pqd, self.folder, self.seconds, self.names = pqd, folder, seconds, 0
        self.members = Members(folder, has_relays=False)
        self.pairs = f"{folder}/pairs"
        sources = [str(it) for it in (TOP / "bench/client").glob("*.c")]
        subprocess.run(["gcc", "-O2", "-pthread", "-o", self.pairs, *sources], check=True)

    def name(self):
        self.names += 1
        return f"bench/r{self.names}"

    def served(self, journal, load):
        """Pairs a second and the median latency in us of a server that is begun for this, and what was counted within."""
        words = [self.pqd, "serve", "--port", "0", "--clients", str(load[0]), "--records", "4096", "--workers", "8", *journal]
        server = subprocess.Popen(words, stdout=subprocess.PIPE, text=True)
        try:
            port = server.stdout.readline().rsplit(":", 1)[1].strip()
            seen, is_over = [], threading.Event()
            watcher = threading.Thread(target=self.watch, args=(seen, is_over))
            watcher.start()
            words = [self.pairs, "pqd", port, *map(str, load), str(PAIRS), str(self.seconds), str(server.pid)]
            ran = subprocess.run(words, capture_output=True, text=True, check=True)
            ended = time.monotonic()
            is_over.set()
            watcher.join()
        finally:
            server.kill()
            server.wait()
        figures = ran.stdout.split()
        return float(figures[0]), float(figures[1]), self.changes(seen, ended)

    def revision(self):
        return int(asked(self.members.clients[0], "/v3/kv/range", {"key": b64(b"a")})["header"]["revision"])

    def watch(self, seen, is_over):
        """How many changes etcd has had, at some times."""
        while not is_over.wait(0.05):
            seen.append((time.monotonic(), self.revision()))

    def changes(self, seen, ended):
        """Changes of etcd's a second in the middle of a load, which begins once its queues are there."""
        within = [it for it in seen if ended - self.seconds + MARGIN <= it[0] <= ended - MARGIN]
        (begun, first), (until, last) = within[0], within[-1]
        return (last - first) / (until - begun)

    def piece_bytes(self, name):
        """How long the pieces of a log are that was appended to, but for those of its head: the median."""
        low, high = f"{name}/0".encode(), f"{name}/1".encode()
        found = asked(self.members.clients[0], "/v3/kv/range", {"key": b64(low), "range_end": b64(high), "limit": "4000"})
        sizes = [len(base64.b64decode(it.get("value", ""))) for it in found["kvs"]]
        return int(statistics.median([it for it in sizes if it < 60_000]))

    def turn(self, load):
        """The figures of one load: of the file, of etcd, and of the plain writer."""
        name = self.name()
        file = self.served(["--journal", f"{self.folder}/{name.replace('/', '-')}", "--sync", "always"], load)
        etcd = self.served(["--journal", f"etcd://{self.members.addresses}/{name}"], load)
        size = self.piece_bytes(name)
        plain = Writer(self.members.clients[0], self.name()).rate(size, self.seconds)
        return file[0], file[1], etcd[0], etcd[1], etcd[2], size, plain


def told(rounds):
    file, file_us, etcd, etcd_us, appends, size, plain = (statistics.median(it) for it in zip(*rounds))
    return (f"{file:>9,.0f} {file_us / 1000:>7.2f} {etcd:>9,.0f} {etcd_us / 1000:>7.2f} {appends:>9,.0f} "
            f"{size:>7,.0f} {plain:>9,.0f} {appends / plain:>7.2f}")


def main(pqd, rounds="5", seconds="1.2"):
    with tempfile.TemporaryDirectory() as folder:
        bench = Bench(os.path.realpath(pqd), folder, float(seconds))
        try:
            rows = [[bench.turn(load) for load in LOADS] for _ in range(int(rounds))]
        finally:
            bench.members.end()
    print("                      file, always         in etcd                       bytes    plain   appends")
    print("connections, each    pairs/s     ms    pairs/s     ms appends/s  an append appends/s over its")
    for load, measured in zip(LOADS, zip(*rows)):
        print(f"{load[0]:>11}, {load[1]:>4}   {told(measured)}")
    print("load of the machine:", " ".join(f"{it:.1f}" for it in os.getloadavg()))


main(*sys.argv[1:])
