"""serving_refused.py PQD LIBRARY: `pqd serve --renew` with few records, each of its allocations refused in turn by the
library tests/refusing.c. Two clients of a log queue make more calls than they have records, beside a list. What is
refused memory was not made, or is unfinished: sent again, it is answered as the list says. Prints what is wrong."""

import json
import os
import socket
import subprocess
import sys

CALLS = 28
MOST_TRIES = 4


class Gone(Exception):
    """The server did not begin to serve, or ended a connection: then nothing is compared."""


class Wrong(Exception):
    """A reply that is not the list's."""


class Server:
    """A server of which the allocation of this number is refused."""

    def __init__(self, number):
        words = [sys.argv[1], *"serve --renew --clients 2 --records 8 --port 0 --workers 1".split()]
        room = {**os.environ, "LD_PRELOAD": sys.argv[2], "REFUSED": str(number)}
        self.process = subprocess.Popen(words, stdout=subprocess.PIPE, stderr=subprocess.PIPE, env=room)
        self.refused = set()

    def connect(self):
        line = self.process.stdout.readline()
        if not line.startswith(b"listening"):
            raise Gone
        try:
            self.socket = socket.create_connection(("127.0.0.1", int(line.rsplit(b":", 1)[1])), timeout=3)
        except OSError as error:
            raise Gone from error
        self.replies = self.socket.makefile("rb")

    def ask(self, **request):
        """What the reply says, in a word; a request that was refused memory is sent again."""
        for _ in range(MOST_TRIES):
            try:
                self.socket.sendall(json.dumps(request).encode() + b"\n")
                reply = json.loads(self.replies.readline() or "null")
            except OSError as error:
                raise Gone from error
            if reply is None:
                raise Gone
            word = reply.get("got", reply.get("reply", reply.get("name")))
            if word not in ("NoMemory", "unfinished"):
                return word
            self.refused.add(request["op"])
        raise Wrong(f"{request} is refused memory over and over")

    def play(self):
        """Pairs of a put and a take, by the two clients in turn, and at last by one alone."""
        self.ask(op="create", queue="a", kind="log")
        waiting, numbers = [], [0, 0]
        for call in range(CALLS):
            client = call // 2 % 2 if call < 20 else 0
            numbers[client] += 1
            request = {"client": client, "queue": "a", "number": numbers[client]}
            if call % 2 == 0:
                waiting.append(f"{call:02x}")
                found, wanted = self.ask(op="put", value=waiting[-1], **request), "done"
            else:
                found, wanted = self.ask(op="take", **request), waiting.pop(0)
            if found != wanted:
                raise Wrong(f"{request}, call {call}, is answered {found} and not {wanted}")
        self.ask(op="stop")
        self.socket.close()
        return self.process.communicate(timeout=60)[1]


def run(number):
    """What is on standard error, and which requests were refused memory."""
    server = Server(number)
    try:
        server.connect()
        return server.play(), server.refused
    finally:
        server.process.kill()
        server.process.communicate()


def main():
    refused = set()
    for number in range(1, int(run(0)[0].split()[-1]) + 1):
        try:
            refused |= run(number)[1]
        except Gone:
            continue
        except Wrong as wrong:
            print(f"with allocation {number} refused: {wrong}")
    if not {"put", "take"} <= refused:
        print("puts and takes were not refused memory")


main()
