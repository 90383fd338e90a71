"""journaling.py PLAIN: the text of journals, by the plain programs of the folder PLAIN. The journal of docs/JOURNAL.md is
written and read. Journals, drawn as crates/test_journal draws them, are cut off at every byte, changed at every byte, and
followed by zeros and by frames of another or their own. Each is read as the words after a beginning of its batches, or
refused, and damage is told from a torn tail. The journal that begins on the words of another, after all its batches, is
read as the same words. The proved program has written the same journals."""

import re
import sys
from pathlib import Path

sys.path.insert(0, sys.argv[1])

import journal
from image import Broken

JOURNALS = 40


class Wrong(Exception):
    """What was found, and what was wanted."""


def require(holds, *said):
    if not holds:
        raise Wrong(*said)


def example():
    """The journal that the document writes out."""
    text = Path("docs/JOURNAL.md").read_text(encoding="utf-8")
    rows = re.findall(r"^((?:[0-9a-f]{2} )+)  ", text.split("## An example")[1], re.MULTILINE)
    return bytes.fromhex("".join(rows))


def check_example():
    key = bytes(range(1, 9))
    data = example()
    written = journal.journal_of(key, [5, 0], [(48, [(1, 7)]), (88, [(0, 6), (1, 0)])])
    require(data == written, "example", written.hex(" "))
    require(journal.reading(data) == (key, [6, 0], 0), journal.reading(data))


class Pcg32:
    """The generator by which crates/test_journal draws."""

    def __init__(self, state):
        self.state = state + 1
        self.step()

    def step(self):
        self.state = (self.state * 6364136223846793005 + 1) % 2**64

    def below(self, count):
        return self.word() % count

    def word(self):
        state = self.state
        self.step()
        number = ((state >> 18 ^ state) >> 27) % 2**32
        return (number >> (state >> 59) | number << (32 - (state >> 59))) % 2**32

    def two_words(self):
        return self.word() | self.word() << 32


class Story:
    """A journal as crates/test_journal draws it: where each beginning of it ends, the words that it leaves, and how many
    bytes were kept when the next frame was written."""

    def __init__(self, seed):
        draw = Pcg32(seed)
        self.bit = 1 << seed % 8
        self.key = draw.two_words().to_bytes(8, "little")
        words = [draw.two_words() for _ in range(1 + draw.below(5))]
        self.data = journal.head_of(self.key, words)
        self.moments = []
        kept = len(self.data)
        for _ in range(draw.below(5)):
            self.moments.append((len(self.data), list(words), kept))
            batch = [(draw.below(len(words)), draw.two_words()) for _ in range(1 + draw.below(3))]
            for word, value in batch:
                words[word] = value
            self.data += journal.frame_of(self.key, self.data[-8:], kept, batch)
            if draw.below(2) == 0:
                kept = len(self.data)
        self.moments.append((len(self.data), list(words), kept))

    def before(self, place):
        """The last beginning that ends there or before, if one does."""
        return next((moment for moment in reversed(self.moments) if moment[0] <= place), None)

    def hidden(self, end, place):
        """Whether a frame behind the place was written when the bytes behind this end were kept."""
        return any(later > place and kept > end for later, _, kept in self.moments[:-1])


def read(data):
    """The reading, or the refusal's name."""
    try:
        return journal.reading(data)
    except Broken as refusal:
        return str(refusal)


def check_cuts(story):
    for end in range(len(story.data) + 1):
        moment = story.before(end)
        wanted = (story.key, moment[1], end - moment[0]) if moment else "Truncated"
        require(read(story.data[:end]) == wanted, "cut", end, wanted)
    return len(story.data) + 1


def check_changes(story):
    for place in range(len(story.data)):
        data = bytearray(story.data)
        data[place] ^= story.bit
        moment = story.before(place)
        found = read(bytes(data))
        if not moment:
            require(isinstance(found, str), "change", place, found)
            continue
        end = moment[0]
        require(found == (story.key, moment[1], len(data) - end), "change", place, found)
        hides = journal.hides_kept_frame(story.key, bytes(data), end)
        require(hides == story.hidden(end, place), "hides", place, hides)
    return len(story.data)


def check_tails(story, other):
    """Zeros, the frames of another journal, and its own once more are no frames of this one."""
    end, words, _ = story.moments[-1]
    for tail in (bytes(100), other.data[other.moments[0][0]:], story.data[story.moments[0][0]:]):
        data = story.data + tail
        require(read(data) == (story.key, words, len(tail)), "tail", tail)
        require(not journal.hides_kept_frame(story.key, data, end), "hides", tail)


def check_compaction(story, other):
    words = story.moments[-1][1]
    require(read(journal.head_of(other.key, words)) == (other.key, words, 0), "compaction", words)


def check_last_sums(stories):
    """The proved program wrote the same journals."""
    sums = 0
    for story in stories:
        sums = (sums << 1 | sums >> 63) % 2**64 ^ int.from_bytes(story.data[-8:], "little")
    text = Path("crates/test_journal/src/drawn.rt").read_text(encoding="utf-8")
    wanted = re.search(r"const LAST_SUMS: u64 = (0x[0-9a-f_]+);", text)[1]
    require(sums == int(wanted, 16), "last sums", hex(sums), wanted)


def main():
    check_example()
    stories = [Story(seed) for seed in range(2 * JOURNALS)]
    cuts = changes = 0
    for story, other in zip(stories, stories[JOURNALS:]):
        cuts += check_cuts(story)
        changes += check_changes(story)
        check_tails(story, other)
        check_compaction(story, other)
    check_last_sums(stories[:JOURNALS])
    print(f"{JOURNALS} journals, {cuts} cuts, {changes} changed bytes")


main()
