#!/usr/bin/env python3
"""Where a server with a log is found: by what it announces, or else where it listens. Over the plain engine.

  python3 announced.py PQD          a line for each case: its name, a tab, and what is wrong, or nothing
"""
import base64
import os
import re
import subprocess
import sys

sys.dont_write_bytecode = True
sys.path.insert(0, os.path.dirname(os.path.abspath(__file__)))
import engine
from ports import free_ports

PQD = sys.argv[1]
TAIL = base64.b64encode(b"test/jobs/tail").decode()


class Log:
    def __init__(self):
        self.engine = engine.Engine()
        self.member = engine.Server(self.engine, engine.Drawn(1, 0))
        self.journal = f"etcd://127.0.0.1:{self.member.port}/test/jobs"

    def owner(self):
        """Where the tail says that its owner is found, and what was drawn for it."""
        return base64.b64decode(self.engine.values[TAIL]).decode().split(" ")[2]

    def serve(self, *words):
        """A server, once it listens or has ended, and what it said on standard output."""
        command = [PQD, "serve", "--journal", self.journal, *words]
        server = subprocess.Popen(command, stdout=subprocess.PIPE, stderr=subprocess.PIPE, text=True)
        return server, server.stdout.readline()

    def end(self, *servers):
        """Ends servers, and answers what each said on standard error."""
        for it in servers:
            it.kill()
        return [it.communicate()[1] for it in servers]


def case(name, found, wanted):
    holds = re.fullmatch(wanted, found)
    print(name, "" if holds else f"found {found!r}, and wanted {wanted!r}".replace("\n", "; "), sep="\t", flush=True)


def announced(port):
    """The text that is announced stands in the tail, and who comes is told that it serves."""
    log, place = Log(), f"localhost:{port}"
    first, _ = log.serve("--port", str(port), "--announce", place)
    case("what is announced stands in the tail", log.owner(), f"{place}/[0-9a-f]{{16}}")
    other, said = log.serve("--port", "0")
    case("a second server does not listen", said, "")
    case("and is told whose the log is", other.communicate()[1], f"pqd: {place} serves\npqd: 32 InUse\n")
    standby = subprocess.Popen([PQD, "serve", "--port", "0", "--journal", log.journal, "--standby"],
                               stdout=subprocess.PIPE, stderr=subprocess.PIPE, text=True)
    case("one that stands by says so", standby.stderr.readline(), f"pqd: {place} serves\n")
    case("a server that is announced warns of nothing", "".join(log.end(first)), "")
    case("it goes on once the first one is gone", standby.stdout.readline(), r"listening 127\.0\.0\.1:\d+\n")
    case("and is found where it listens", log.owner(), r"127\.0\.0\.1:\d+/[0-9a-f]{16}")
    log.end(standby)


def unspecified(port):
    """Where it listens at every address nobody is found, unless it is announced."""
    log = Log()
    words = "--port", str(port), "--listen", "0.0.0.0"
    whoever = f"pqd: whoever reaches 0\\.0\\.0\\.0:{port} is served: there is no password\n"
    server, _ = log.serve(*words)
    case("a server at every address warns", "".join(log.end(server)),
         f"pqd: nobody is found at 0\\.0\\.0\\.0:{port}: --announce says where others find this server\n(pqd: .*\n)?{whoever}")
    server, _ = log.serve(*words, "--take-over", "--announce", f"127.0.0.1:{port}")
    case("and not where it is announced", "".join(log.end(server)), f"(pqd: the log has .*\n)?{whoever}")


def nameless(port):
    """A name without an address is nobody's: the log is taken."""
    log = Log()
    first, _ = log.serve("--port", str(port), "--announce", "nobody.invalid:7070")
    second, said = log.serve("--port", "0")
    case("a name without an address is nobody's", said, r"listening 127\.0\.0\.1:\d+\n")
    log.end(first, second)


def main():
    for play, port in zip((announced, unspecified, nameless), free_ports(3)):
        play(port)


if __name__ == "__main__":
    main()
