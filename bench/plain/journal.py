"""The text of a journal, by docs/JOURNAL.md: the words that a file begins on, and all changes since."""

import struct

from form import FORM
from image import MOST_WORDS, Broken, image_of, require

MAGIC = b"PQJ1"
MOST_CHANGES = 2**24
HEAD = 32
FRONT = 20
CHANGE = 12
SUM = 8
MASK = 2**64 - 1


def turned(number, by):
    return (number << by | number >> (64 - by)) & MASK


def sip(data):
    """SipHash-1-3 under the key 0."""
    v0, v1, v2, v3 = 0x736F6D6570736575, 0x646F72616E646F6D, 0x6C7967656E657261, 0x7465646279746573

    def rounds(count):
        nonlocal v0, v1, v2, v3
        for _ in range(count):
            v0 = (v0 + v1) & MASK
            v2 = (v2 + v3) & MASK
            v1 = turned(v1, 13) ^ v0
            v3 = turned(v3, 16) ^ v2
            v0 = (turned(v0, 32) + v3) & MASK
            v2 = (v2 + v1) & MASK
            v1 = turned(v1, 17) ^ v2
            v3 = turned(v3, 21) ^ v0
            v2 = turned(v2, 32)

    whole = len(data) // 8 * 8
    last = data[whole:] + bytes(7 - len(data) % 8) + bytes([len(data) % 256])
    for (word,) in struct.iter_unpack("<Q", data[:whole] + last):
        v3 ^= word
        rounds(1)
        v0 ^= word
    v2 ^= 0xFF
    rounds(3)
    return v0 ^ v1 ^ v2 ^ v3


def sum_of(key, data):
    """The sum of these bytes under the key, which is never 0."""
    return struct.pack("<Q", max(1, sip(key + data)))


def head_of(key, words):
    front = MAGIC + image_of(words) + key
    return front + sum_of(key, front)


def frame_of(key, before, kept, changes):
    """The frame of changes (word, value), behind one of this sum, or behind the head."""
    front = before + struct.pack("<QI", kept, len(changes))
    front += b"".join(struct.pack("<IQ", *change) for change in changes)
    return front + sum_of(key, front)


def journal_of(key, words, batches):
    """The journal of batches (kept, changes)."""
    text = head_of(key, words)
    for kept, changes in batches:
        text += frame_of(key, text[-SUM:], kept, changes)
    return text


class Frame:
    """The whole frame that the bytes from a place on begin with, by its own sum, if there is one."""

    def __init__(self, key, data, at):
        self.size = 0
        if len(data) < at + FRONT:
            return
        self.before = data[at:at + SUM]
        self.kept, count = struct.unpack_from("<QI", data, at + SUM)
        end = at + FRONT + CHANGE * count
        if not 1 <= count <= MOST_CHANGES or len(data) < end + SUM:
            return
        if data[end:end + SUM] != sum_of(key, data[at:end]):
            return
        self.changes = list(struct.iter_unpack("<IQ", data[at + FRONT:end]))
        self.size = end + SUM - at


def reading(data):
    """The key, the words after all frames, and how many bytes are cut off; or the refusal."""
    first = MAGIC + FORM.magic
    if data[:8] != first[:len(data)]:
        raise Broken("BadMagic")
    require(len(data) >= 16, "Truncated")
    (count,) = struct.unpack_from("<Q", data, 8)
    require(1 <= count <= MOST_WORDS, "BadCount")
    at = HEAD + 8 * count
    require(len(data) >= at, "Truncated")
    key = data[at - 2 * SUM:at - SUM]
    before = data[at - SUM:at]
    if before != sum_of(key, data[:at - SUM]):
        raise Broken("BadSum")
    words = list(struct.unpack_from(f"<{count}Q", data, 16))
    while True:
        frame = Frame(key, data, at)
        if not frame.size or frame.before != before or any(word >= count for word, _ in frame.changes):
            return key, words, len(data) - at
        for word, value in frame.changes:
            words[word] = value
        at += frame.size
        before = data[at - SUM:at]


def torn(data, cut):
    """How many bytes of what is cut off are a torn frame's: those up to the last that is not 0."""
    return len(data[len(data) - cut:].rstrip(b"\0"))


def hides_kept_frame(key, data, place):
    """Whether a whole frame lies behind the place that was written when the bytes there were kept."""
    for at in range(place, len(data)):
        frame = Frame(key, data, at)
        if frame.size and place < frame.kept <= at:
            return True
    return False
