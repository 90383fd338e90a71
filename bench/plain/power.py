"""What a loss of power may leave of the files of a journal, where a stop left them as they are. By docs/JOURNAL.md
("What the tests show") and what the library tests/killing.c told of them."""

import os
from pathlib import Path

# The size of a block that a disk writes whole.
BLOCK = 512


class Disk:
    """What the library told of the files of a journal: how much of each is kept, and which renaming is not."""

    def __init__(self, file, told):
        self.file = file
        self.kept = {}
        self.renamed = None
        for line in Path(told).read_text().splitlines() if os.path.exists(told) else ():
            what, *numbers = line.split()
            if what == "file":
                self.kept[int(numbers[0])] = int(numbers[1])
            else:
                self.renamed = int(numbers[0]) if what == "renamed" else None

    def found(self, suffix):
        """A file beside the journal: all its bytes, and how many of those that were written are kept; or None."""
        path = self.file + suffix
        if not os.path.exists(path):
            return None
        data = Path(path).read_bytes()
        return data, self.kept.get(os.stat(path).st_ino, len(data))

    def journals(self):
        """What may be the journal: the one that has its name, and the one before, where the folder may not know yet."""
        yield self.found("")
        if self.renamed is not None:
            yield self.found(f".{self.renamed}") if self.renamed else None


def left(draw, data, kept):
    """What may be left of these bytes, of which so many are kept. Zeros at their end, which are room for more, are there
    or not."""
    end = max(kept, len(data.rstrip(b"\0")))
    room = bytes(len(data) - end) if draw.random() < 0.5 else b""
    yield data[:kept] + room
    if kept == end:
        return
    yield data[:end] + room
    cut = draw.randint(kept, end)
    yield data[:cut]
    yield data[:cut] + bytes(end - cut) + room
    blocks = bytearray(data[:end])
    for begin in range(kept // BLOCK * BLOCK, end, BLOCK):
        if draw.random() < 0.5:
            until = min(begin + BLOCK, end)
            blocks[max(begin, kept):until] = bytes(until - max(begin, kept))
    yield bytes(blocks) + room
