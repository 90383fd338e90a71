"""What the tests of clients/python share: a server that is killed and started again, and cases that are printed as a
line each: a name, a tab, and what is wrong, or nothing."""

import atexit
import json
import os
import random
import signal
import socket
import subprocess
import sys
import threading

TOP = os.path.dirname(os.path.dirname(os.path.dirname(os.path.abspath(__file__))))
sys.path.insert(0, os.environ.get("SITE", f"{TOP}/clients/python"))


def say(name, wrong=""):
    print(name, str(wrong).replace("\n", "; ").replace("\t", " "), sep="\t", flush=True)


def case(name, found, wanted):
    say(name, "" if found == wanted else f"found {found!r}, and wanted {wanted!r}")


def raised(call, *words, **more):
    """The error that a call raises, or its result."""
    try:
        return call(*words, **more)
    except Exception as error:
        return error


def name_of(it):
    return type(it).__name__


class Server:
    """A `pqd serve` at a port that stays the same, with a journal if there is a folder for it."""

    def __init__(self, pqd, folder, *options):
        self.pqd, self.options, self.port = pqd, list(options), 0
        self.journal = ["--journal", f"{folder}/journal"] if folder else []
        # No server outlives a test, also one that fails or is stopped.
        atexit.register(lambda: self.process.kill())
        self.start()

    def start(self, *more):
        words = [self.pqd, "serve", "--port", str(self.port), "--workers", "16", *self.journal, *self.options, *more]
        self.process = subprocess.Popen(words, stdout=subprocess.PIPE, stderr=subprocess.DEVNULL)
        said = self.process.stdout.readline()
        if not said:
            raise RuntimeError(f"the server ended with status {self.process.wait()}")
        self.port = int(said.rsplit(b":", 1)[1])

    @property
    def address(self):
        return f"127.0.0.1:{self.port}"

    def kill(self):
        self.process.send_signal(signal.SIGKILL)
        self.process.wait()
        self.process.stdout.close()

    def ask(self, *requests):
        """The replies to requests on a connection of their own."""
        with socket.create_connection(("127.0.0.1", self.port)) as connection, connection.makefile("rw") as lines:
            replies = []
            for request in requests:
                print(json.dumps(request), file=lines, flush=True)
                replies.append(json.loads(lines.readline()))
            return replies

    def recovers(self):
        """The broker crashes and recovers, each said by a connection of its own."""
        self.ask({"op": "crash"})
        self.ask({"op": "recover"})


class Played:
    """A server that answers what it is told to: a reply to each line, or None to end the connection."""

    def __init__(self, *replies):
        self.replies, self.lines = list(replies), []
        self.listening = socket.create_server(("127.0.0.1", 0))
        self.address = "127.0.0.1:%d" % self.listening.getsockname()[1]
        threading.Thread(target=self.serve, daemon=True).start()

    def serve(self):
        while self.replies:
            connection, _ = self.listening.accept()
            with connection, connection.makefile("rb") as lines:
                self.answer(connection, lines)
        self.listening.close()

    def answer(self, connection, lines):
        while self.replies:
            line = lines.readline()
            if not line:
                return
            self.lines.append(json.loads(line))
            reply = self.replies.pop(0)
            if reply is None:
                return
            connection.sendall(json.dumps(reply).encode() + b"\n")

    def numbers(self):
        return [it.get("number") for it in self.lines]


class Proxy:
    """Connections to a server; the next one is cut after so many bytes to it, or so many from it."""

    def __init__(self, port):
        self.port, self.most_sent, self.most_got = port, None, None
        self.cuts = 0
        self.listening = socket.create_server(("127.0.0.1", 0))
        self.address = "127.0.0.1:%d" % self.listening.getsockname()[1]
        threading.Thread(target=self.serve, daemon=True).start()

    def cut(self, sent=None, got=None):
        self.most_sent, self.most_got = sent, got

    def serve(self):
        while True:
            client, _ = self.listening.accept()
            server = socket.create_connection(("127.0.0.1", self.port))
            most = self.most_sent, self.most_got
            self.cut()
            ends = client, server
            for pair, count in zip((ends, ends[::-1]), most):
                threading.Thread(target=self.forward, args=(*pair, count, ends), daemon=True).start()

    def forward(self, source, target, most, ends):
        """Forwards bytes, at most so many, and ends both then."""
        try:
            while most is None or most > 0:
                data = source.recv(4096 if most is None else most)
                if not data:
                    break
                target.sendall(data)
                most = None if most is None else most - len(data)
            self.cuts += most == 0
        except OSError:
            pass
        for it in ends:
            try:
                it.shutdown(socket.SHUT_RDWR)
            except OSError:
                pass


signal.signal(signal.SIGTERM, lambda *_: sys.exit("stopped"))


class Died(BaseException):
    """The client's process dies here."""


def die_at(broker, moment, turn=1):
    """Lets a client die before or after it notes, sends or has read for this time from now on."""
    link, state = broker._link, broker._state
    how, _, what = moment.partition(" ")
    owner, name = {"note": (state, "write"), "send": (link, "send"), "reply": (link, "receive")}[what]
    call, left = getattr(owner, name), [turn]

    def dying(*words, **more):
        left[0] -= 1
        if left[0] == 0 and how == "before":
            raise Died
        result = call(*words, **more)
        if left[0] == 0:
            raise Died
        return result

    setattr(owner, name, dying)


MOMENTS = [f"{how} {what}" for what in ("note", "send", "reply") for how in ("before", "after")]


def seeded():
    """The seed of this run, which SEED names."""
    seed = int(os.environ.get("SEED", random.randrange(1 << 32)))
    random.seed(seed)
    return seed
