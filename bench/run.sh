#!/usr/bin/env bash
# Acts a second of `pqx run` on a generated script of 1,000 lines, and on one of 500. An act costs no more for the
# acts before it, so the time of the first is at most 2.1 times that of the second, the time of a run without acts
# taken off both. Printed, not tested.
set -eu
cd "$(dirname "$0")/../crates/pqx"
rt run < stdin -- run > /dev/null 2>&1
work=$(mktemp -d)
trap 'rm -r "$work"' EXIT

# A script of so many lines: each call is an enqueue or a dequeue, started by one line and ended by the next.
script() {
    printf 'queue durable 1 4096\n'
    for ((line = 1; line < $1; line += 4)); do
        printf 'enq 0 %08x\nstep 0 1000\ndeq 0\nstep 0 1000\n' "$line"
    done | head -n $(($1 - 1))
}

# Seconds of 200 runs on a script, the best of nine times.
seconds() {
    local begun
    for ((batch = 0; batch < 9; batch++)); do
        begun=$(date +%s.%N)
        for ((turn = 0; turn < 200; turn++)); do
            ./out/pqx run < "$1" > /dev/null
        done
        echo "$(date +%s.%N) $begun"
    done | awk '{ print $1 - $2 }' | sort -g | head -n 1
}

printf 'queue durable 1 4096\n' > "$work/none"
for lines in 500 1000; do
    script "$lines" > "$work/$lines"
    ./out/pqx run < "$work/$lines" > "$work/$lines.out"
    # A call that returned after S steps made S acts beside its start.
    awk '/^call/ { acts += 1 } / steps / { acts += $NF } END { print acts }' "$work/$lines.out" > "$work/$lines.acts"
done
awk -v none="$(seconds "$work/none")" -v short="$(seconds "$work/500")" -v long="$(seconds "$work/1000")" \
    -v few="$(cat "$work/500.acts")" -v many="$(cat "$work/1000.acts")" 'BEGIN {
    short -= none
    long -= none
    printf "500 lines: %d acts, %.0f acts a second\n", few, 200 * few / short
    printf "1,000 lines: %d acts, %.0f acts a second\n", many, 200 * many / long
    printf "time of 1,000 lines over 500: %.2f\n", long / short
}'
