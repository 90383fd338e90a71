#!/usr/bin/env bash
# load.sh [MINUTES]: `pqd serve` under load for a minute, or so many. Eight clients put and take at random in eight
# queues, four of each kind, and keep their histories, while another connection crashes and recovers the broker now and
# then. When calls are used up, or the time is, all that is left is taken, and each queue's history must be explained by
# a first-in-first-out order: nothing lost, nothing doubled, nothing overtaken, no empty answer while a value was there.
# Each server stops half way and starts on its image, where it keeps one. Prints what was seen; at a history that no
# order explains, the first difference, with status 1. PQD names another pqd than the one that `rt run` left, RECORDS
# how many calls each client has in a queue (4,096).
set -eu
pqd=$(realpath -m "${PQD:-$(dirname "$0")/../crates/pqd/out/pqd}")
if [ ! -x "$pqd" ]; then
    echo "there is no $pqd: \`rt run\` in crates/pqd leaves it there, and PQD=PATH names another one"
    exit 1
fi
exec python3 -B "$(dirname "$0")/client/load.py" "$pqd" "${1:-1}"
