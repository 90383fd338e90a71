#!/usr/bin/env bash
# Whether what README and docs/ name is there: the tests, scripts, files, crates and calls of the table "Every public
# call" in docs/PROOFS.md, the paths of all pages, their links, and the sections that are cited by their title. Pages with
# a name that is not there are seen to be refused.
set -eu
cd "$(dirname "$0")/.."
. tests/cases.sh

python3 -B tests/named.py > "$work/places"
while IFS=$'\t' read -r place said; do
    judge "$place" "$said"
done < "$work/places"

# A copy of the pages in which a text is another one, in one line, is refused there with these words: FILE OLD NEW WORDS
bent() {
    local said
    rm -rf "$work/pages"
    mkdir "$work/pages"
    cp -r README.md docs "$work/pages"
    python3 - "$work/pages/$1" "$2" "$3" << 'PYTHON' || judge "$1" "$2 does not stand there"
import sys
path, old, new = sys.argv[1:]
text = open(path).read()
open(path, "w").write(text.replace(old, new, 1))
sys.exit(old not in text)
PYTHON
    said=$(python3 -B tests/named.py "$work/pages" | grep -vxFf "$work/places" | cut -f 2)
    if grep -qF "$4" <<< "$said"; then judge "$3" ''; else judge "'$3' in $1" "it is not refused: $said"; fi
}

# A row's crate, call, script, part of a script, file of a folder, module of a crate, option and program.
bent docs/PROOFS.md '| words | `Item::make`' '| word | `Item::make`' 'there is no such crate'
bent docs/PROOFS.md '| words | `Item::make`' '| words | `Item::mark`' 'words has no Item::mark'
bent docs/PROOFS.md '| tests/renewal.sh |' '| tests/renewals.sh |' 'there is no tests/renewals.sh'
bent docs/PROOFS.md 'tests/memory.sh: again' 'tests/memory.sh: worlds' "tests/memory.sh has no part 'worlds'"
bent docs/PROOFS.md 'tests/broker: rotate' 'tests/broker: rotation' 'tests/broker has no file rotation'
bent docs/PROOFS.md 'test_threads: crowd' 'test_threads: crowds' 'the crate test_threads has no module and no function crowds'
bent docs/PROOFS.md 'bench/kill.sh --journal |' 'bench/kill.sh --journals |' 'bench/kill.sh has no --journals'
bent docs/PROOFS.md '| test_threads: crowd |' '| test_crowd |' 'there is no test_crowd'
# A call of the second table, a path, a link to a page and to a heading, and a section that is cited.
bent docs/PROOFS.md '| history | `check`;' '| history | `checks`;' 'history has no checks'
bent README.md 'examples/killed.py' 'examples/kill.py' 'there is no such path'
bent README.md '](docs/LIMITS.md)' '](docs/LIMIT.md)' 'there is no such file'
bent README.md 'docs/PROOFS.md#crates' 'docs/PROOFS.md#crate' 'there is no such heading'
bent docs/DECISIONS.md 'MEASURED.md, "What a step costs"' 'MEASURED.md, "What steps cost"' 'there is no such section'
count
