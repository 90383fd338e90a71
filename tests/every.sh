#!/usr/bin/env bash
# The built pqx and pqd say what the plain programs of bench/plain say of what can be listed: each byte at each place of
# requests and scripts (bench/plain/every_byte.py), scripts that a crash cuts off at each step
# (bench/plain/every_crash.py), scripts that bend images (bench/plain/bent_images.py), and images that differ from a sound
# one in a byte (bench/plain/every_image_byte.py). And plain programs that are wrong in one place are seen to differ. It
# takes the programs that the last `rt ci`, or `rt run` in their folders, left, or those that PQD and PQX name.
set -eu
cd "$(dirname "$0")/.."
. tests/cases.sh
export TMPDIR=$work
pqd=${PQD:-$PWD/crates/pqd/out/pqd}
pqx=${PQX:-$PWD/crates/pqx/out/pqx}
need "$pqd" "$pqx"

# Each byte at each place: as many of each kind as the documents make of these texts.
for part in lines scripts brokers; do
    status=0
    python3 -B bench/plain/every_byte.py "$pqd" "$pqx" "$work" "$part" > "$work/out" 2> "$work/err" || status=$?
    cat "$work/out"
    compare "every byte of $part" 0 "$status" "tests/every-byte/$part.out" /dev/null
done

# Scripts of a whole broker that a crash cuts off at each step, and again: so many of each family.
status=0
python3 -B bench/plain/every_crash.py "$pqx" > "$work/out" 2> "$work/err" || status=$?
cat "$work/out"
compare 'every crash' 0 "$status" tests/every-crash.out /dev/null

# Images near sound ones: so many that break no rule, and that break each rule first.
status=0
python3 -B bench/plain/bent_images.py "$pqx" > "$work/out" 2> "$work/err" || status=$?
cat "$work/out"
compare 'bent images' 0 "$status" tests/bent-images.out /dev/null

# Images that differ from a sound one in a byte: so many of each that a broker serves, and that break each rule first.
status=0
python3 -B bench/plain/every_image_byte.py "$pqx" > "$work/out" 2> "$work/err" || status=$?
cat "$work/out"
compare 'every byte of images' 0 "$status" tests/every-image-byte.out /dev/null

# What every_byte.py says of such a copy: FILE OLD NEW lines|scripts
wrong_byte() {
    local status=0 said=
    change "$1" "$2" "$3"
    python3 -B "$work/plain/every_byte.py" "$pqd" "$pqx" "$work" "$4" > "$work/out" 2>&1 || status=$?
    if [ "$status" -ne 1 ] || ! grep -q "^$4 differs: " "$work/out"; then
        said="status $status: $(cat "$work/out")"
    fi
    judge "every byte by plain programs with '$3' in $1" "$said"
}
wrong_byte broker.py '[a-z0-9_-]{1,16}' '[a-z0-8_-]{1,16}' lines
wrong_byte broker.py 'self.values.append(value)' 'self.values.insert(0, value)' lines
wrong_byte form.py '(?:[0-9a-f]{2})*' '(?:[0-9a-fA-F]{2})*' lines
wrong_byte lines.py 'GREATEST_CLIENT = 2**64 - 1' 'GREATEST_CLIENT = 2**64 - 2' lines
wrong_byte script.py '"M": (1, 1000)' '"M": (0, 1000)' scripts
wrong_byte form.py 're.compile(rb"0|[1-9][0-9]*")' 're.compile(rb"[0-9]+")' scripts

# What every_image_byte.py says of such a copy: FILE OLD NEW
wrong_image() {
    local status=0 said=
    change "$1" "$2" "$3"
    python3 -B "$work/plain/every_image_byte.py" "$pqx" > "$work/out" 2>&1 || status=$?
    if [ "$status" -ne 1 ] || ! grep -q '^images differ: ' "$work/out"; then
        said="status $status: $(head -n 5 "$work/out")"
    fi
    judge "every byte of images by plain programs with '$3' in $1" "$said"
}
wrong_image image.py 'require(gate in (0, 1), "Directory")' 'pass'
wrong_image image.py '{"reply": "done"} if log in self.chain else None' None
wrong_image every_image_byte.py "' '.join(held[1:])" "' '.join(held)"

count
