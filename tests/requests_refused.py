"""requests_refused.py PQD LIBRARY FOLDER COMMAND:NAME..: `pqd pipe` or `pqd serve` with each of its allocations refused
in turn by the library tests/refusing.c, on the requests FOLDER/NAME.in, which FOLDER/NAME.out answers. The first one
begins without an image, each other one on the image that the one before left. A server has one worker and one
connection.

A request that is refused memory leaves what can be asked of the broker as it was, and is answered as ever when it is
sent again. A call that is left unfinished is finished: with a number when it is sent again, without one by the client's
next request, so that the reply of a take is lost. The image at the end is the same. Or pqd says that there is no
memory, or its server goes on, but not with this connection: then its replies are a beginning, and its image stays.
Prints how often each came, and which requests were made again, and what is wrong, with status 1."""

import concurrent.futures
import contextlib
import json
import os
import re
import socket
import subprocess
import sys
import tempfile
from collections import Counter

MOST_TRIES = 3
# Seconds for a reply of a server that may be gone, and for the end of a program that answered all.
PATIENCE, END = 5, 60
CLIENTS, RECORDS = 2, 6
NO_MEMORY = {"error": 6, "name": "NoMemory"}
UNFINISHED = {"reply": "unfinished"}
# What a server that goes on says of its connection, or nothing: where no thread can be made, it waits.
WARNED = re.compile(rb"(\[WARN  server::connections\] a connection is closed unserved: 6 NoMemory\n)?")
# What can be asked of a broker.
LOOKS = [{"op": "list"}, *({"op": "told", "client": client, "queue": queue}
                           for queue in ("a", "b", "c") for client in range(CLIENTS))]
# What becomes of a run: requests were made again, or finished; pqd said that there is no memory; its server went on,
# but not with this connection; the allocation was missed by nobody.
KINDS = ("again", "unfinished", "said", "gone", "none")


class Gone(Exception):
    """The program ended, or its connection did, before it answered."""


class Wrong(Exception):
    """What differs from the run in which no memory is refused."""


class Run:
    """A run of a command with the allocation of this number refused, on the image of the path."""

    def __init__(self, command, number, image):
        words = [sys.argv[1], command, "--clients", str(CLIENTS), "--records", str(RECORDS), "--image", image]
        settings = {**os.environ, "LD_PRELOAD": os.path.abspath(sys.argv[2]), "REFUSED": str(number)}
        words += ["--port", "0", "--workers", "1"] if command == "serve" else []
        pipe = subprocess.PIPE
        self.process = subprocess.Popen(words, stdin=pipe, stdout=pipe, stderr=pipe, env=settings)
        self.streams = self.process.stdin, self.process.stdout
        self.is_served = command == "serve"
        self.again, self.unfinished = set(), set()

    def connect(self):
        """Of a server the streams are its connection's."""
        if not self.is_served:
            return
        line = self.process.stdout.readline()
        if not line.startswith(b"listening"):
            raise Gone
        try:
            connection = socket.create_connection(("127.0.0.1", int(line.rsplit(b":", 1)[1])), timeout=PATIENCE)
        except OSError as error:
            raise Gone from error
        self.streams = connection.makefile("wb"), connection.makefile("rb")
        connection.close()

    def ask(self, line):
        """The reply to a line."""
        try:
            self.streams[0].write(line + b"\n")
            self.streams[0].flush()
            reply = self.streams[1].readline()
        except OSError as error:
            raise Gone from error
        if not reply:
            raise Gone
        return json.loads(reply)

    def look(self):
        """All that can be asked of the broker; a question that is refused memory is asked again."""
        seen = []
        for question in LOOKS:
            line = json.dumps(question).encode()
            reply = self.ask(line)
            seen.append(self.ask(line) if reply == NO_MEMORY else reply)
        return seen

    def play(self, line, seen):
        """The reply to a line, which is sent again where it is refused memory; None where it is lost."""
        for _ in range(MOST_TRIES):
            reply = self.ask(line)
            if reply == UNFINISHED:
                return self.finish(line)
            if reply != NO_MEMORY:
                return reply
            self.again.add(name_of(line))
            if self.look() != seen:
                raise Wrong(f"{line} is refused memory, and changes something")
        raise Wrong(f"{line} is refused memory over and over")

    def finish(self, line):
        """The reply to a call that was left unfinished, or None where it is lost. One that has no number is finished by
        a request of the same client, which is refused itself: the queue is of the other kind."""
        request = json.loads(line)
        self.unfinished.add(name_of(line))
        if "number" in request:
            return self.ask(line)
        other = {"op": "put", "client": request["client"], "queue": request["queue"], "number": 1, "value": "01"}
        found = self.ask(json.dumps(other).encode())
        if found.get("name") != "WrongKind":
            raise Wrong(f"{other} behind an unfinished {line} is answered {found}")
        return {"reply": "done"} if request["op"] == "put" else None

    def end(self, seconds):
        """The status, or None where it goes on after these, and what is on standard error."""
        with contextlib.suppress(OSError):
            self.streams[0].close()
            self.process.stdin.close()
        with contextlib.suppress(subprocess.TimeoutExpired):
            self.process.wait(timeout=seconds)
        status = self.process.poll()
        self.process.kill()
        return status, self.process.stderr.read()

    def close(self):
        self.process.kill()
        self.process.wait()
        for stream in (*self.streams, self.process.stdout, self.process.stderr):
            with contextlib.suppress(OSError):
                stream.close()


def name_of(line):
    """What a line asks for."""
    try:
        return json.loads(line)["op"]
    except ValueError:
        return "nothing"


class Row:
    """Requests and their replies, and the image on which they begin, if there is one."""

    def __init__(self, folder, command, name, image):
        with open(f"{folder}/{name}.in", "rb") as file:
            self.lines = file.read().splitlines()
        with open(f"{folder}/{name}.out", "rb") as file:
            self.replies = [json.loads(line) for line in file]
        self.command, self.image = command, image
        self.looks, self.left, self.count = None, None, None

    def begin(self, folder):
        """The path of the image."""
        path = f"{folder}/image"
        if self.image is not None:
            with open(path, "wb") as file:
                file.write(self.image)
        return path

    def play_whole(self, is_looked_at):
        """The run in which none is refused: what can be asked before each line, how many allocations it takes, and the
        image that it leaves."""
        with tempfile.TemporaryDirectory() as folder:
            path, looks = self.begin(folder), []
            run = Run(self.command, 0, path)
            run.connect()
            for line, wanted in zip(self.lines, self.replies, strict=True):
                looks.append(run.look() if is_looked_at else None)
                if run.ask(line) != wanted:
                    raise Wrong(f"{line} is not answered {wanted}")
            status, error = run.end(END)
            if status != 0:
                raise Wrong(f"it ends with status {status} and {error}")
            return looks, int(error), image_at(path)

    def play_all(self):
        """The runs in which none is refused."""
        self.looks, _, self.left = self.play_whole(True)
        _, self.count, left = self.play_whole(False)
        if left != self.left:
            raise Wrong("another image is left where the broker is looked at")

    def refuse(self, number):
        """What became of a run in which this allocation is refused: one of KINDS, and of which requests."""
        with tempfile.TemporaryDirectory() as folder:
            path = self.begin(folder)
            run = Run(self.command, number, path)
            try:
                return self.compared(run, path)
            finally:
                run.close()

    def play(self, run):
        """Whether it answered to the end."""
        try:
            run.connect()
            for line, wanted, seen in zip(self.lines, self.replies, self.looks):
                found = run.play(line, seen)
                if found not in (None, wanted):
                    raise Wrong(f"{line} is answered {found}, and not {wanted}")
        except Gone:
            return False
        return True

    def compared(self, run, path):
        is_answered = self.play(run)
        status, error = run.end(END if is_answered else PATIENCE)
        is_gone = run.is_served and not is_answered and status is None and WARNED.fullmatch(error)
        if is_gone or status == 1 and error == b"pqd: 6 NoMemory\n":
            if image_at(path) != self.image:
                raise Wrong("it ends without memory, and changes the image")
            return "gone" if is_gone else "said", set()
        if status != 0 or error or not is_answered:
            raise Wrong(f"it ends with status {status}, and says {error}")
        if image_at(path) != self.left:
            raise Wrong("it leaves another image")
        if run.unfinished:
            return "unfinished", run.unfinished
        return ("again", run.again) if run.again else ("none", set())


def image_at(path):
    if not os.path.exists(path):
        return None
    with open(path, "rb") as file:
        return file.read()


def tried(row, number):
    try:
        return row.refuse(number), None
    except Wrong as wrong:
        return None, f"with allocation {number} refused: {wrong}"


def refuse_all(row, name):
    """Refuses each allocation of a row in turn, and prints what came of it. Whether all was right."""
    counts, names, is_right = Counter(), {"again": set(), "unfinished": set()}, True
    with concurrent.futures.ThreadPoolExecutor(os.cpu_count()) as pool:
        for found, wrong in pool.map(lambda number: tried(row, number), range(1, row.count + 1)):
            if wrong:
                is_right = False
                print(f"{name}: {wrong}")
                continue
            counts[found[0]] += 1
            names.setdefault(found[0], set()).update(found[1])
    print(f"{name}: {row.count} allocations refused: " + ", ".join(f"{counts[kind]} {kind}" for kind in KINDS))
    for kind in ("again", "unfinished"):
        print(f"{name}, {kind}: {' '.join(sorted(names[kind])) or '-'}")
    return is_right


def main(folder, *rows):
    image, is_right = None, True
    for each in rows:
        row = Row(folder, *each.split(":"), image)
        try:
            row.play_all()
        except Wrong as wrong:
            sys.exit(f"{each}: with no memory refused: {wrong}")
        is_right &= refuse_all(row, each)
        image = row.left
    sys.exit(not is_right)


if __name__ == "__main__":
    main(*sys.argv[3:])
