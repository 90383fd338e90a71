#!/usr/bin/env bash
# The examples of docs/SCRIPT.md, as a reader tries them: the left of a block is a script, and what pqx prints of it is
# on the right, where `..` stands for lines that are left out. So a row of the manual may be a test too. It takes the
# program that the last `rt ci`, or `rt run` in crates/pqx, left, or the one that PQX names.
set -eu
cd "$(dirname "$0")/.."
. tests/cases.sh
pqx=${PQX:-$PWD/crates/pqx/out/pqx}
need "$pqx"

# The two columns of each block that begins with a script, as LINE.script and LINE.wanted. A third column is not played.
awk -v to="$work" '
    /^```/ { inside = !inside; name = ""; next }
    inside && name == "" {
        name = /^(queue|broker) / && match($0, /  +/) ? to "/" NR : "none"
        right = RSTART + RLENGTH
        width = match(substr($0, right), /  +/) ? RSTART - 1 + RLENGTH : 1000
    }
    inside && name != "none" {
        line = substr($0, 1, right - 1); said = substr($0, right, width)
        sub(/ +$/, "", line); sub(/ +$/, "", said)
        if (line != "") print line > (name ".script")
        if (said != "") print said > (name ".wanted")
    }
' docs/SCRIPT.md

# Plays one, by the command that prints such lines: EXAMPLE
play() {
    local command=run status=0
    case $(head -n 1 "$1.wanted") in
        'point '*' client '*) command=alone ;;
        'point '*) command=points ;;
    esac
    case $(head -n 1 "$1.script") in
        broker*) command="broker $command" ;;
    esac
    # shellcheck disable=SC2086
    "$pqx" $command < "$1.script" > "$work/out" 2> "$work/err" || status=$?
    if grep -qx '\.\.' "$1.wanted"; then
        grep -vx '\.\.' "$1.wanted" > "$1.told"
        mv "$1.told" "$1.wanted"
        grep -Fxf "$1.wanted" "$work/out" > "$work/found" || true
        mv "$work/found" "$work/out"
    fi
    compare "docs/SCRIPT.md, line ${1##*/}" 0 "$status" "$1.wanted" /dev/null
}

for script in "$work"/*.script; do
    play "${script%.script}"
done
count
