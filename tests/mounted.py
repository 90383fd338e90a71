"""mounted.py PQD: `pqd --journal` on file systems that are small, fill up, or may not be written. It mounts them, so it is
to run where it may: `unshare --map-root-user --mount python3 tests/mounted.py PQD`. After each end a server begins on what
is left, where there is room again, and goes on with the story: every reply is the story's."""

import errno
import os
import subprocess
import tempfile
from contextlib import contextmanager
from pathlib import Path

from journal_story import STORY, Broker, Wrong, clear, go_on, require

ROOM = 1 << 20
PAGE = 4096


@contextmanager
def mounted(size):
    """A file system of so many bytes, and the place of a journal in it."""
    with tempfile.TemporaryDirectory() as folder:
        subprocess.run(["mount", "-t", "tmpfs", "-o", f"size={size}", "tmpfs", folder], check=True)
        try:
            yield folder, f"{folder}/journal"
        finally:
            subprocess.run(["umount", folder], check=True)


def remount(folder, *options):
    subprocess.run(["mount", "-o", ",".join(("remount", *options)), folder], check=True)


def fill(path):
    """A file that takes all the room that is left."""
    with open(path, "wb", buffering=0) as filler:
        try:
            while filler.write(bytes(PAGE)):
                pass
        except OSError as failure:
            require(failure.errno == errno.ENOSPC, failure)


def small(policy):
    """File systems of so many pages: each is too small for the story, or for a second journal beside the first."""
    sizes = over = 0
    for pages in range(1, 24):
        with mounted(pages * PAGE) as (folder, file):
            broker = Broker(file, "--sync", policy)
            at = broker.play(0)
            status, said = broker.end()
            if status != 0:
                require(said in ("pqd: 31 NotKept\n", "pqd: 27 WriteFailed\n"), f"{pages} pages", said)
                require(said.endswith("NotKept\n") or at == 0, f"{pages} pages: it could not begin, with {at} answered")
                over += 1
            remount(folder, f"size={ROOM}")
            go_on(file, at, "--sync", policy) if at < len(STORY) else None
        sizes += 1
    return f"--sync {policy}: {sizes} small file systems, of which {over} ended it; each reply is the story's"


def filled(policy):
    """A file system that another file fills behind each reply of the story but the last."""
    ended = 0
    for full in range(1, len(STORY)):
        with mounted(ROOM) as (folder, file):
            broker = Broker(file, "--sync", policy)
            for request, wanted in STORY[:full]:
                require(broker.ask(request) == wanted, request)
            fill(f"{folder}/filler")
            at = broker.play(full)
            status, said = broker.end()
            require((status, said) in ((0, ""), (1, "pqd: 31 NotKept\n")), f"full behind {full}: status {status}", said)
            ended += status
            os.remove(f"{folder}/filler")
            go_on(file, at, "--sync", policy) if at < len(STORY) else None
    return f"--sync {policy}: filled behind {len(STORY) - 1} replies, of which {ended} ended it; each reply is the story's"


def read_only(policy):
    """A file system that may not be written: no server begins there, and the journal stays."""
    half = len(STORY) // 2
    with mounted(ROOM) as (folder, file):
        broker = Broker(file, "--sync", policy)
        for request, wanted in STORY[:half]:
            require(broker.ask(request) == wanted, request)
        broker.process.kill()
        broker.end()
        before = Path(file).read_bytes()
        remount(folder, "ro")
        for journal in (file, f"{folder}/none"):
            refused = Broker(journal, "--sync", policy).end()
            require(refused == (1, "pqd: 27 WriteFailed\n"), journal, refused)
        require(Path(file).read_bytes() == before, "the journal is another one")
        remount(folder, "rw")
        go_on(file, half, "--sync", policy)
        clear(file)
    return f"--sync {policy}: a file system that may not be written: refused, and the journal stays"


try:
    for each in ("always", "never"):
        print(small(each))
        print(filled(each))
        print(read_only(each))
except Wrong as wrong:
    print("wrong:", *wrong.args)
