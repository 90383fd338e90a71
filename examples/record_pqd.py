#!/usr/bin/env python3
"""Records clients of a `pqd` that goes down under load: python3 record_pqd.py crash|stop|kill|journal PQD | pqx check

Eight clients put into a log queue and take from it. Three times the server goes down, and at last the queue is drained.
    crash    the broker stops with all calls under way, and recovers
    stop     the server ends in order, and another one begins with the image that it wrote
    kill     the server is killed (`kill -9`), and another one begins with the image of its last end in order: here, none
    journal  the server is killed (`kill -9`), and another one begins with its journal
Each client goes before it has read the answer to its last put, and asks later what became of that.
"""
import itertools, json, os, random, socket, subprocess, sys, tempfile, threading, time
from recorder import Recorder

recorder = Recorder()
note = recorder.note

values = (f"{number:08x}" for number in itertools.count())

class Client:
    """A client of the queue `jobs`, which numbers its calls."""

    def __init__(self, name):
        self.name, self.number, self.is_open = name, 0, False

    def connect(self, port):
        self.socket = socket.create_connection(("127.0.0.1", port))
        self.lines = self.socket.makefile("rw")

    def close(self):
        self.lines.close()
        self.socket.close()

    def send(self, op, **more):
        print(json.dumps({"op": op, **more}), file=self.lines, flush=True)

    def ask(self, op, **more):
        self.send(op, **more)
        answer = self.lines.readline()
        if not answer.endswith("\n"):
            raise OSError("the server is gone")
        return json.loads(answer)

    def call(self, op, **value):
        """A call and its answer, each with a line. It answers whether the client was answered."""
        note(client=self.name, op=op, **value)
        self.is_open = True
        answer = self.ask(op, client=int(self.name), queue="jobs", number=self.number + 1, **value)
        if answer.get("reply") == "interrupted":
            return False
        self.is_open = False
        if "error" in answer:
            recorder.refused(self.name)
            return False
        self.number += 1
        note(client=self.name, **answer)
        return answer["reply"] != "empty" or None

    def put_or_take(self):
        return self.call("put", value=next(values)) if random.random() < 0.5 else self.call("take")

    def leave(self):
        """Puts, and goes when the answer has come, but has not read it."""
        value = next(values)
        note(client=self.name, op="put", value=value)
        self.is_open = True
        self.send("put", client=int(self.name), queue="jobs", number=self.number + 1, value=value)
        self.socket.shutdown(socket.SHUT_WR)
        self.socket.recv(1, socket.MSG_PEEK)

    def learn(self):
        """What the client is told of its last call: it goes on from the number of that one. A new broker tells none."""
        told = self.ask("told", client=int(self.name), queue="jobs")
        number = told.pop("number", 0)
        if self.is_open and told["told"] != "none":
            is_this = number == self.number + 1
            note(client=self.name, **(told if is_this else {"told": "nottaken"}))
        self.number, self.is_open = number, False

    def load(self, port, until):
        """Puts and takes until a call is not answered, or the time is over, and leaves."""
        try:
            self.connect(port)
            while time.monotonic() < until and self.put_or_take() is not False:
                pass
            if not self.is_open:
                self.leave()
            self.close()
        except OSError:
            pass

def started(pqd, how, folder):
    """A server and its port, and an operator of it, who sees to it that the queue is there."""
    option = "--journal" if how == "journal" else "--image"
    server = subprocess.Popen([pqd, "serve", "--port", "0", "--clients", "9", "--records", "4096", "--workers", "16",
        option, os.path.join(folder, "file")], stdout=subprocess.PIPE, text=True)
    port = int(server.stdout.readline().split(":")[1])
    operator = Client("8")
    operator.connect(port)
    operator.ask("create", queue="jobs", kind="log")
    return server, port, operator

def main():
    how, pqd = sys.argv[1:]
    clients = [Client(str(number)) for number in range(8)]
    with tempfile.TemporaryDirectory() as folder:
        server, port, operator = started(pqd, how, folder)
        for down in range(3):
            now = time.monotonic()
            threads = [threading.Thread(target=client.load, args=(port, now + 0.1 + 0.2 * random.random()))
                for client in clients]
            [thread.start() for thread in threads]
            time.sleep(0.2)
            server.kill() if how in ("kill", "journal") else operator.ask(how)
            # Each client has noted every answer that came, before the crash is noted.
            [thread.join() for thread in threads]
            recorder.crash()
            if how == "crash":
                operator.ask("recover")
            else:
                operator.close()
                server.wait()
                server, port, operator = started(pqd, how, folder)
            for client in clients:
                client.connect(port)
                client.learn()
                client.close()
        while operator.call("take"):
            pass
        server.kill()
        server.wait()
    recorder.write()

main()
