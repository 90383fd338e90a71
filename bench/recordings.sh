#!/usr/bin/env bash
# recordings.sh [PQX]: seconds and memory of `pqx check` on drawn recordings: 100,000 and 1,000,000 lines of 8 and of 16
# clients, of a queue that is right, and of one that loses a value at 97 and at 1 of 100 lines; the best of ROUNDS rounds
# (3). Then the plain search of Wing and Gong, in Python, on 24 lines and more, for at most SECONDS_EACH seconds (20) each.
# Printed, not tested. It needs GNU time, and 2 GB of memory.
set -eu
pqx=$(realpath -m "${1:-${PQX:-$(dirname "$0")/../crates/pqx/out/pqx}}")
if [ ! -x "$pqx" ]; then
    echo "there is no $pqx: \`rt run\` in crates/pqx leaves it there, and bench/recordings.sh PATH takes another one"
    exit 1
fi
cd "$(dirname "$0")"
rounds=${ROUNDS:-3}
work=$(mktemp -d)
trap 'rm -r "$work"' EXIT

# Seconds, and bytes an event, of a check of a recording of so many lines: FILE LINES
check() {
    for ((round = 0; round < rounds; round++)); do
        command time -f '%e %M' -o "$work/time" "$pqx" check < "$1" > "$work/said" || true
        tail -n 1 "$work/time"
    done | sort -g | head -n 1 | awk -v lines="$2" '{ printf "%6.2f s %5.0f bytes a line  ", $1, $2 * 1024 / lines }'
    head -n 1 "$work/said"
}

for clients in 8 16; do
    for lines in 100000 1000000; do
        crashes=$((lines / 5000))
        python3 client/recordings.py "$lines" "$clients" "$crashes" 1 > "$work/recording"
        printf '%2d clients %8d lines, right          ' "$clients" "$lines"
        check "$work/recording" "$lines"
        for share in 0.97 0.01; do
            python3 client/recordings.py "$lines" "$clients" "$crashes" 1 "$share" > "$work/recording"
            printf '%2d clients %8d lines, lost at %-5s  ' "$clients" "$lines" "$share"
            check "$work/recording" "$lines"
        done
    done
done
for lines in 24 32 48 64; do
    for lost in '' 0.5; do
        python3 client/recordings.py "$lines" 8 0 1 $lost > "$work/recording"
        begun=$(date +%s.%N)
        said=$(python3 plain/wing_gong.py "${SECONDS_EACH:-20}" < "$work/recording")
        awk -v lines="$lines" -v lost="${lost:+, a value lost}" -v said="$said" -v took="$(date +%s.%N) $begun" \
            'BEGIN { split(took, t, " "); printf "Wing and Gong, %d lines%s: %s, %.1f s\n", lines, lost, said, t[1] - t[2] }'
    done
done
