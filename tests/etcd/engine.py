#!/usr/bin/env python3
"""A plain engine: what docs/CLUSTER.md asks of etcd, from a dictionary, and nothing else. What becomes of an exchange is
drawn: its answer may be lost, before the request is done or behind that; cut at any byte; framed by a length or in
chunks, with a trailer; of another status; and the request may be done twice, or once more much later.

  python3 engine.py PORT [SEED [SHARE]]     SHARE of a hundred exchanges go wrong (0)
"""
import base64
import json
import random
import socket
import sys
import threading
import time
import typing

from ports import Port

ERROR = b'{"error":"etcdserver: request timed out","message":"etcdserver: request timed out","code":14}'


class Engine:
    """The keys and their values."""

    def __init__(self):
        self.lock, self.values, self.revision = threading.Lock(), {}, 1
        self.held = []

    def hold(self, path, body):
        """A request is on its way."""
        with self.lock:
            self.held.append((path, body))

    def release(self):
        """All that is on its way arrives."""
        with self.lock:
            held, self.held = self.held, []
        for path, body in held:
            self.answer(path, body)

    def ranged(self, asked):
        """The answer to a range of one key, without its header."""
        unknown = set(asked) - {"key"}
        assert not unknown, f"a range with {unknown}"
        value = self.values.get(asked["key"])
        return {"kvs": [{"key": asked["key"], "value": value}], "count": "1"} if value is not None else {}

    def is_met(self, compare):
        value = self.values.get(compare["key"])
        if compare["target"] == "CREATE":
            assert compare["result"] == "EQUAL" and compare["create_revision"] == "0", compare
            return value is None
        assert compare["target"] == "VALUE" and compare["result"] == "EQUAL", compare
        return value == compare["value"]

    def done(self, step):
        (kind, asked), = step.items()
        if kind == "request_put":
            self.values[asked["key"]] = asked["value"]
            return {"response_put": {}}
        if kind == "request_range":
            return {"response_range": self.ranged(asked)}
        assert kind == "request_delete_range", kind
        low, high = base64.b64decode(asked["key"]), base64.b64decode(asked["range_end"])
        gone = [key for key in self.values if low <= base64.b64decode(key) < high]
        for key in gone:
            del self.values[key]
        return {"response_delete_range": {"deleted": str(len(gone))}}

    def answer(self, path, body):
        asked = json.loads(body)
        with self.lock:
            self.revision += 1
            header = {"header": {"revision": str(self.revision)}}
            if path == "/v3/kv/range":
                return header | self.ranged(asked)
            assert path == "/v3/kv/txn", path
            # (without a range to fail by, etcd would answer from what one member knows)
            assert asked["compare"] and asked["failure"], "a transaction of comparisons alone"
            is_met = all(self.is_met(it) for it in asked["compare"])
            told = [self.done(it) for it in asked["success" if is_met else "failure"]]
            return header | ({"succeeded": True} if is_met else {}) | {"responses": told}


class Fate(typing.NamedTuple):
    """What becomes of an exchange."""
    kind: str = "answered"
    # Behind which byte of its answer it is cut or rests, counted anew behind the last one.
    at: int = 0
    # How many bytes a chunk of its answer has. Where that is 0 the answer has a length.
    chunk: int = 0
    # For how many seconds it rests, where it is late or slow.
    rest: float = 0.0
    # The answer, where it is odd.
    text: bytes = b""


KINDS = ("before", "behind", "cut", "status", "twice", "late", "slow")
# Nobody is answered who waits: the request never came, or it was done, or it is on its way.
STILL = ("unheard", "unanswered", "held")


class Fates:
    """What becomes of each exchange."""

    def __init__(self):
        # Whether one was kept still, and how long an answer's text was at most.
        self.lock, self.reached, self.longest = threading.Lock(), threading.Event(), 0


class Drawn(Fates):
    """It is drawn: SHARE of a hundred go wrong."""

    def __init__(self, seed, share):
        super().__init__()
        self.random, self.share, self.counts = random.Random(seed), share, {}

    def fate(self):
        with self.lock:
            draws = self.random
            kind = draws.choice(KINDS) if draws.random() * 100 < self.share else "answered"
            self.counts[kind] = self.counts.get(kind, 0) + 1
            chunk = draws.choice((0, draws.randrange(1, 65), 65_536))
            rest = draws.random() * (3 if kind == "late" else 0.05)
            return Fate(kind, draws.getrandbits(32), chunk, rest)


def framed(status, body, chunk):
    """An answer's bytes: as etcd frames them, or otherwise, as HTTP allows."""
    head = b"HTTP/1.1 " + status + b"\r\nContent-Type: application/json\r\n"
    if not chunk:
        return head + b"Content-Length: %d\r\n\r\n" % len(body) + body
    text = head + b"Trailer: Grpc-Trailer-Content-Type\r\nTransfer-Encoding: chunked\r\n\r\n"
    for at in range(0, len(body), chunk):
        piece = body[at:at + chunk]
        text += b"%x\r\n" % len(piece) + piece + b"\r\n"
    return text + b"0\r\nGrpc-Trailer-Content-Type: application/grpc\r\n\r\n"


class Server(Port):
    """A member: a port where the engine is asked. `fates` says what becomes of each exchange."""

    def __init__(self, engine, fates, port=0):
        self.engine, self.fates = engine, fates
        super().__init__(port)

    def talk(self, connection):
        try:
            with connection, connection.makefile("rb") as lines:
                connection.setsockopt(socket.IPPROTO_TCP, socket.TCP_NODELAY, 1)
                while self.exchange(connection, lines):
                    pass
        except OSError:
            pass

    def exchange(self, connection, lines):
        """One request and what becomes of it. Whether the connection goes on."""
        line = lines.readline().split()
        if not line:
            return False
        length = 0
        while (header := lines.readline().strip()):
            name, value = header.split(b":", 1)
            length = int(value) if name.lower() == b"content-length" else length
        body = lines.read(length)
        if len(body) < length:
            return False
        fate, path = self.fates.fate(), line[1].decode()
        if fate.kind in STILL:
            self.keep_still(fate, path, body)
            # Until nobody waits for it any more.
            lines.read(1)
            return False
        return self.answers(fate, connection, path, body)

    def keep_still(self, fate, path, body):
        """The request is done or not, and says nothing of that."""
        if fate.kind == "unanswered":
            self.engine.answer(path, body)
        if fate.kind == "held":
            self.engine.hold(path, body)
        self.fates.reached.set()

    def answers(self, fate, connection, path, body):
        """The request is answered, or not, by its fate. Whether the connection goes on."""
        if fate.kind == "before":
            return False
        if fate.kind == "late":
            # Nobody waits for it any more when it is done; and it may have been sent again meanwhile.
            threading.Timer(fate.rest, self.engine.answer, (path, body)).start()
            return False
        if fate.kind == "status":
            connection.sendall(framed(b"503 Service Unavailable", ERROR, fate.chunk))
            return True
        answer = json.dumps(self.engine.answer(path, body), separators=(",", ":")).encode()
        if fate.kind == "twice":
            self.engine.answer(path, body)
        if fate.kind == "behind":
            return False
        if fate.kind == "odd":
            connection.sendall(fate.text)
            return True
        return self.tells(fate, connection, framed(b"200 OK", answer, fate.chunk))

    def tells(self, fate, connection, text):
        """The answer is sent, or a part of it. Whether the connection goes on."""
        self.fates.longest = max(self.fates.longest, len(text))
        at = fate.at % len(text)
        if fate.kind == "cut":
            connection.sendall(text[:at])
            return False
        if fate.kind == "slow":
            connection.sendall(text[:at])
            time.sleep(fate.rest)
            text = text[at:]
        connection.sendall(text)
        return True


def main(port, seed="1", share="0"):
    Server(Engine(), Drawn(int(seed), float(share)), int(port))
    threading.Event().wait()


if __name__ == "__main__":
    main(*sys.argv[1:])
