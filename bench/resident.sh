#!/usr/bin/env bash
# The memory that `pqd serve` has resident after 20,000, one million and ten million `list` requests on one connection:
# what a connection was served is remembered in proofs alone, so the last is at most 1.05 times the first. Printed, not
# tested. PQD names another pqd than the one that `rt run` left.
set -eu
pqd=$(realpath -m "${PQD:-$(dirname "$0")/../crates/pqd/out/pqd}")
if [ ! -x "$pqd" ]; then
    echo "there is no $pqd: \`rt run\` in crates/pqd leaves it there, and PQD=PATH names another one"
    exit 1
fi
exec python3 -B "$(dirname "$0")/client/resident.py" "$pqd"
