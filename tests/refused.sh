#!/usr/bin/env bash
# What must not compile: each crates/NAME/refused/*.edit is a change of a file that the borrow checker has to refuse with
# the error that the edit's first line names. Such a change reaches no prover, so it is no must-fail edit. Each is made
# on a copy of the crate and of those below it, over what earlier checks proved of them.
set -eu -o pipefail
cd "$(dirname "$0")/.."
. tests/cases.sh
if [ -n "${UNPROVED-}" ]; then
    leave_out 'what must not compile, which needs the crates below proved'
    count
    exit
fi

# Copies a crate and those that it stands on, with what earlier checks built: CRATE FOLDER
copy() {
    local name
    mkdir -p "$2/crates"
    git init -q "$2"
    for name in $1 $(sed -n "s/^$1: *//p" crates.txt); do
        cp -r "crates/$name" "$2/crates"
        grep "^$name:" crates.txt >> "$2/crates.txt"
    done
}

# Makes the edit's change in the file that it names, in which the old text stands once.
change() {
    python3 - "$1" "$2" << 'PYTHON'
import sys
lines = dict(line.split(": ", 1) for line in open(sys.argv[1]).read().splitlines())
path = sys.argv[2] + "/" + lines["file"]
text = open(path).read()
assert text.count(lines["old"]) == 1, sys.argv[1]
open(path, "w").write(text.replace(lines["old"], lines["new"]))
PYTHON
}

for edit in crates/*/refused/*.edit; do
    crate=$(basename "$(dirname "$(dirname "$edit")")")
    copy "$crate" "$work/copy"
    folder=$work/copy/crates/$crate
    change "$edit" "$folder"
    error=$(sed -n 's/^error: //p' "$edit")
    said=$(cd "$folder" && rt check 2>&1 || true)
    if grep -q "error\[$error\]" <<< "$said"; then
        said=
    else
        said="not refused with $error"$'\n'$(head -n 5 <<< "$said")
    fi
    judge "$edit" "$said"
    rm -r "$work/copy"
done
count
