#!/usr/bin/env bash
# Who is served over connections: those who say the secret, where one is asked for; as many as may be open; and those
# over which lines come. It takes the program that the last `rt ci`, or `rt run` in crates/pqd, left, or the one that PQD
# names.
set -eu
cd "$(dirname "$0")/.."
. tests/cases.sh
pqd=${PQD:-$PWD/crates/pqd/out/pqd}
need "$pqd"

for part in secrets hello crowd idle; do
    status=0
    timeout 300 python3 -B tests/door.py "$part" "$pqd" > "$work/cases" 2> "$work/err" || status=$?
    judge "$part" "$([ "$status" -eq 0 ] || { echo "status $status" && cat "$work/err"; })"
    while IFS=$'\t' read -r name said; do
        judge "$name" "$said"
    done < "$work/cases"
done
count
