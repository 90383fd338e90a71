#!/usr/bin/env bash
# Recovery's steps after a crash with 2n items in the queue over those with n, by `pqx run`, and its processor time over
# its time, by `pqd pipe`: at most 2.1. A request and its reply are a part of the time. Printed, not tested. PQX and PQD
# name other programs than those that `rt run` left.
set -eu
pqx=$(realpath -m "${PQX:-$(dirname "$0")/../crates/pqx/out/pqx}")
pqd=$(realpath -m "${PQD:-$(dirname "$0")/../crates/pqd/out/pqd}")
for program in "$pqx" "$pqd"; do
    if [ ! -x "$program" ]; then
        echo "there is no $program: \`rt run\` leaves it there, and PQX=PATH and PQD=PATH name others"
        exit 1
    fi
done

# Recovery's steps with so many items in a queue of one client: KIND ITEMS
steps() {
    local number=
    {
        echo "queue $1 1 4096"
        for ((item = 1; item <= $2; item++)); do
            [ "$1" = durable ] || number="$item "
            printf 'enq 0 %s07\nend 0\n' "$number"
        done
        printf 'crash\nrecover\n'
    } | "$pqx" run | sed -n 's/^ready steps //p'
}

for kind in durable log; do
    for items in 120 240; do
        awk -v kind=$kind -v n=$items -v few="$(steps $kind $items)" -v more="$(steps $kind $((2 * items)))" 'BEGIN {
            printf "%s: %d steps with %d items, %d with %d: ratio %.2f\n", kind, few, n, more, 2 * n, more / few
        }'
    done
done
python3 -B "$(dirname "$0")/client/timed_pipe.py" recover "$pqd" "${ROUNDS:-20}" | awk '
    $1 == kind {
        printf "%s: %.0f us with %d items, %.0f with %d: ratio %.2f, %.0f ns an item more\n", \
            $1, time * 1e6, items, $3 * 1e6, $2, $3 / time, ($3 - time) * 1e9 / ($2 - items)
    }
    { kind = $1; items = $2; time = $3 }'
