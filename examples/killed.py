#!/usr/bin/env python3
"""A server that is killed in the middle of calls, and a client that need not know: python3 killed.py PQD.

The server has a journal, so that a stop of its process is a crash like any other: the next server begins on what the
journal has. Whether the put that was under way took effect before the kill, nobody knows. The client sends it again
with its number, until it is answered, and it takes effect once.
"""
import os
import subprocess
import sys
import tempfile
import threading
import time

# Without this line: pip install ./clients/python
sys.path.insert(0, os.path.join(os.path.dirname(os.path.abspath(__file__)), "../clients/python"))
from wistaku import Broker

KILLS = 3


def started(journal, port=0):
    """A server that begins on the journal, and its port."""
    words = [sys.argv[1], "serve", "--port", str(port), "--journal", journal, "--sync", "always", "--records", "1024"]
    server = subprocess.Popen(words, stdout=subprocess.PIPE)
    return server, int(server.stdout.readline().rsplit(b":", 1)[1])


def put_until(queue, messages, enough):
    while not enough.is_set():
        message = b"message %d" % len(messages)
        queue.put(message)
        messages.append(message)
        time.sleep(0.001)


def main(journal):
    server, port = started(journal)
    with Broker([f"127.0.0.1:{port}"], client=0) as broker:
        queue, messages, enough = broker.log("jobs", create=True), [], threading.Event()
        putting = threading.Thread(target=put_until, args=(queue, messages, enough))
        putting.start()
        for kill in range(KILLS):
            while len(messages) < 10 * (kill + 1):
                time.sleep(0.001)
            server.kill()
            server.wait()
            server, _ = started(journal, port)
        enough.set()
        putting.join()
        print(f"put messages one after another, while the server was killed {KILLS} times by kill -9")
        taken = queue.take_many(len(messages) + 1)
        print("took them:", "each once, and in order" if taken == messages else f"{taken}, and not {messages}")
    server.kill()
    server.wait()


with tempfile.TemporaryDirectory() as folder:
    main(f"{folder}/journal")
