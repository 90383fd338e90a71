#!/usr/bin/env bash
# fuzz.sh [MINUTES [SEED]]: draws scripts, lines of requests and images for a minute, or so many, and compares what pqx
# and pqd say of them with plain programs in Python (bench/plain), which were written from docs/ alone: a memory, the
# tables of steps and a list for a queue, a session of numbers, a reader of lines and one of images. Prints what was
# tried; at the first difference its kind, its seed, the file that keeps the input, and both answers, with status 1. The
# same seed draws the same. PQD and PQX name other programs than those that `rt run` left, PLAIN another folder of plain
# programs.
set -eu
top=$(realpath "$(dirname "$0")/..")
pqd=$(realpath -m "${PQD:-$top/crates/pqd/out/pqd}")
pqx=$(realpath -m "${PQX:-$top/crates/pqx/out/pqx}")
for program in "$pqd" "$pqx"; do
    if [ ! -x "$program" ]; then
        echo "there is no $program: \`rt run\` in its folder leaves it there, and PQD=PATH and PQX=PATH name others"
        exit 1
    fi
done
seconds=$(awk -v minutes="${1:-1}" 'BEGIN { print 60 * minutes }')
folder=$(mktemp -d)
status=0
python3 -B "${PLAIN:-$top/bench/plain}/fuzz.py" "$pqd" "$pqx" "$seconds" "${2:-1}" "$folder" || status=$?
# The input of a difference stays.
[ -e "$folder/difference" ] || rm -r "$folder"
exit "$status"
