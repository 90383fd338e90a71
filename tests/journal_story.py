"""The story of requests that tests of `pqd --journal` play, and a broker that answers them: of the program that the
first word of the command line names."""

import json
import os
import resource
import signal
import subprocess
import sys
from pathlib import Path

PQD = sys.argv[1]
# The calls of the system by which a journal is written.
CALLS = ("open", "ftruncate", "write", "fdatasync", "fsync", "rename")
# Where files are full at so many bytes, the journal goes on as a shorter one, some times in a story.
MOST = 24400
# When the library tests/killing.c can stop it.
MOMENTS = ("within-write", *CALLS, *(f"after-{name}" for name in CALLS))


class Wrong(Exception):
    """What was found, and what was wanted."""


def require(holds, *said):
    if not holds:
        raise Wrong(*said)


def story():
    """Requests and their replies: two clients of a log queue, beside a list. Nobody runs out of records."""
    yield {"op": "create", "queue": "a", "kind": "log"}, {"reply": "created", "slot": 0}
    yield {"op": "create", "queue": "b", "kind": "durable"}, {"reply": "created", "slot": 1}
    held, numbers = [], [0, 0]
    for turn in range(12):
        client = turn // 2 % 2
        numbers[client] += 1
        call = {"client": client, "queue": "a", "number": numbers[client]}
        if turn % 5 in (0, 1, 3):
            held.append(f"{turn:02x}" * (turn + 1))
            yield {"op": "put", **call, "value": held[-1]}, {"reply": "done"}
        elif held:
            yield {"op": "take", **call}, {"got": held.pop(0), "reply": "got"}
        else:
            yield {"op": "take", **call}, {"reply": "empty"}


STORY = list(story())
# What a creation that was not answered may be answered when it is sent again.
THERE = "Exists"


class Broker:
    """A `pqd pipe` with a journal, which answers one line after another. Its files are full at `most` bytes."""

    def __init__(self, file, *options, most=resource.RLIM_INFINITY, records=16, **environment):
        def prepare():
            signal.signal(signal.SIGXFSZ, signal.SIG_IGN)
            resource.setrlimit(resource.RLIMIT_FSIZE, (most, most))
        words = [PQD, "pipe", "--clients", "2", "--records", str(records), "--journal", file, *options]
        self.process = subprocess.Popen(
            words, stdin=subprocess.PIPE, stdout=subprocess.PIPE, stderr=subprocess.PIPE,
            env={**os.environ, **environment}, preexec_fn=prepare, restore_signals=False,
        )

    def ask(self, request):
        """The reply, or None where there is none."""
        try:
            self.process.stdin.write(json.dumps(request).encode() + b"\n")
            self.process.stdin.flush()
        except BrokenPipeError:
            return None
        line = self.process.stdout.readline()
        return json.loads(line) if line.endswith(b"\n") else None

    def end(self):
        """Its status, and what it said on standard error."""
        said = self.process.communicate()[1].decode()
        return self.process.returncode, said

    def play(self, at):
        """The story from there on. How far it was answered as the story is."""
        while at < len(STORY):
            request, wanted = STORY[at]
            reply = self.ask(request)
            if reply is None:
                return at
            require(reply == wanted, f"{request} was answered {reply}, and not {wanted}")
            at += 1
        return at


def resend(broker, at):
    """Sends again the request that was not answered."""
    request, wanted = STORY[at]
    reply = broker.ask(request)
    there = request["op"] == "create" and reply.get("name") == THERE
    require(there or reply == wanted, f"{request}, sent again, was answered {reply}, and not {wanted}")


def go_on(file, at, *options):
    """The rest of the story, on what is left of the journal."""
    broker = Broker(file, *options)
    if at < len(STORY):
        resend(broker, at)
        at = broker.play(at + 1)
    require(at == len(STORY), f"only {at} requests were answered, and nothing failed", broker.process.poll())
    status, said = broker.end()
    require(status == 0, f"status {status}", said)
    return said


def is_torn(said):
    return "torn frame" in said


def clear(file):
    """No journal, and no file beside it."""
    folder, name = os.path.split(file)
    for entry in os.listdir(folder):
        if entry == name or entry.startswith(name + "."):
            os.remove(os.path.join(folder, entry))
