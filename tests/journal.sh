#!/usr/bin/env bash
# The text of journals, by a plain program of bench/plain: the one of docs/JOURNAL.md, and drawn ones, cut off and changed
# at every byte. Plain programs that are wrong in one place are seen to fail.
set -eu
cd "$(dirname "$0")/.."
. tests/cases.sh
cp -r bench/plain "$work/plain"
cp -r bench/plain "$work/right"

journal() {
    python3 -B tests/journaling.py "$work/plain" > "$work/out" 2>&1 || true
    difference 'journal' tests/journal.txt "$work/out"
}
judge 'journal' "$(journal)"

# The sum: its rounds, its key, and that it is a chain.
wrong journal.py 'rounds(3)' 'rounds(4)' journal
wrong journal.py 'sip(key + data)' 'sip(data)' journal
wrong journal.py 'or frame.before != before or' 'or' journal
wrong journal.py 'if data[end:end + SUM] != sum_of(key, data[at:end]):' 'if False:' journal
# The head, the counts and the changes.
wrong journal.py 'front = MAGIC + image_of(words) + key' 'front = MAGIC + key + image_of(words)' journal
wrong journal.py 'if before != sum_of(key, data[:at - SUM]):' 'if False:' journal
wrong journal.py 'end = at + FRONT + CHANGE * count' 'end = at + FRONT + CHANGE * (count - 1)' journal
wrong journal.py 'words[word] = value' 'words[word] = 0' journal
# What is cut off, and what is damage.
wrong journal.py 'return key, words, len(data) - at' 'return key, words, 0' journal
wrong journal.py 'place < frame.kept <= at' 'place <= frame.kept <= at' journal
wrong journal.py 'place < frame.kept <= at' 'place < frame.kept < place' journal
count
