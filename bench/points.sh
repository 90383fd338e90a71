#!/usr/bin/env bash
# Points a second of `pqx points` on scripts of 4 clients with some 2,000, 4,000 and 8,000 points: how many times as fast
# four processors are as one (at least 3.4), what a point costs with 128 and with 4,096 records a client, and how many
# times the time the next script takes, which has twice the points (at most 2.5). Printed, not tested.
set -eu
cd "$(dirname "$0")/../crates/pqx"
rt run < stdin -- run > /dev/null 2>&1
work=$(mktemp -d)
trap 'rm -r "$work"' EXIT

# A script of 4 clients with so many records each, who enqueue and then dequeue in turn, so many times.
script() {
    printf 'queue durable 4 %d\n' "$1"
    for ((round = 0; round < $2; round++)); do
        for client in 0 1 2 3; do
            printf 'enq %d %08x\nend %d\ndeq %d\nend %d\n' "$client" "$round" "$client" "$client" "$client"
        done
    done
}

# Seconds of a run on so many processors, the best of five: PROCESSORS SCRIPT.
seconds() {
    local begun
    for ((turn = 0; turn < 5; turn++)); do
        begun=$(date +%s.%N)
        taskset -c "0-$(($1 - 1))" ./out/pqx points < "$2" > /dev/null
        echo "$(date +%s.%N) $begun"
    done | awk '{ print $1 - $2 }' | sort -g | head -n 1
}

for records in 128 4096; do
    before=
    for rounds in 11 22 44; do
        script "$records" "$rounds" > "$work/script"
        points=$(./out/pqx points < "$work/script" | awk 'END { print $2 }')
        one=$(seconds 1 "$work/script")
        awk -v records="$records" -v points="$points" -v one="$one" -v four="$(seconds 4 "$work/script")" \
            -v before="$before" 'BEGIN {
            printf "%d records a client, %d points: %.0f points a second on 4 processors, %.0f on 1: ratio %.2f; " \
                "%.3f s and %.1f microseconds of one processor a point", records, points, points / four, points / one, \
                one / four, one, 1e6 * one / points
            if (before != "") printf "; %.2f times the time of half as many", one / before
            printf "\n"
        }'
        before=$one
    done
done
uptime
