#!/usr/bin/env python3
"""Records clients of a redis-server that is killed under load: python3 record_redis.py none|everysec|always | pqx check

Eight clients put by RPUSH and take by LPOP. Three times the server is killed (`kill -9`) and started again, and at last
the list is drained. What is asked for is how it keeps its list: not at all, or by `appendonly yes` with that appendfsync.
"""
import random, signal, socket, subprocess, sys, tempfile, threading, time
from recorder import Recorder

recorder = Recorder()

class Client:
    """A connection to the server; a call that gets no answer raises OSError."""

    def __init__(self, name, port):
        self.name, self.socket = name, socket.create_connection(("127.0.0.1", port))
        self.answers = self.socket.makefile("rb")

    def ask(self, *words):
        self.socket.sendall(b"*%d\r\n" % len(words) + b"".join(b"$%d\r\n%s\r\n" % (len(w), w) for w in words))
        head = self.answers.readline()
        if not head.endswith(b"\r\n"):
            raise OSError("the server is gone")
        if head[:1] == b"$" and head != b"$-1\r\n":
            body = self.answers.readline()
            if not body.endswith(b"\r\n"):
                raise OSError("the server is gone")
            return body[:-2].decode()
        return None

    def put(self, value):
        recorder.put(self.name, value, lambda: self.ask(b"RPUSH", b"list", value.encode()))

    def take(self):
        return recorder.take(self.name, lambda: self.ask(b"LPOP", b"list"))

def started(port, folder, keeps):
    """A server, when it answers."""
    asked = ["--save", ""] if keeps == "none" else ["--save", "", "--appendonly", "yes", "--appendfsync", keeps]
    server = subprocess.Popen(["redis-server", "--port", str(port), "--dir", folder, *asked], stdout=subprocess.DEVNULL)
    for _ in range(100):
        try:
            Client("probe", port).ask(b"LLEN", b"list")
            return server
        except OSError:
            time.sleep(0.05)
    sys.exit("redis-server did not start")

def load(port, name, time_of):
    """Puts and takes until the server is gone, or the time is over."""
    try:
        client = Client(name, port)
        while time.monotonic() < time_of[0]:
            time_of[1][name] = number = time_of[1].get(name, 0) + 1
            client.put(f"{name}:{number}") if random.random() < 0.5 else client.take()
    except OSError:
        pass

def main():
    keeps, numbers = sys.argv[1], {}
    with socket.socket() as free, tempfile.TemporaryDirectory() as folder:
        free.bind(("127.0.0.1", 0))
        port = free.getsockname()[1]
        free.close()
        for kill in range(4):
            server = started(port, folder, keeps)
            until = time.monotonic() + (0.4 if kill < 3 else 0.2)
            threads = [threading.Thread(target=load, args=(port, name, (until + (kill < 3), numbers))) for name in "abcdefgh"]
            [thread.start() for thread in threads]
            time.sleep(max(0, until - time.monotonic()))
            if kill < 3:
                server.send_signal(signal.SIGKILL)
                server.wait()
            # Each client has noted every answer that came, before the crash is noted.
            [thread.join() for thread in threads]
            if kill < 3:
                recorder.crash()
        drain = Client("drain", port)
        while drain.take() is not None:
            pass
        server.kill()
        server.wait()
    recorder.write()

main()
