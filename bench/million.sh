#!/usr/bin/env bash
# million.sh [PAIRS]: a million pairs of a put and a take through one queue of `pqd serve --renew`, by eight connections
# with 16 pairs in flight on each. Each item comes out once, and those of one connection in their order. Printed are the
# pairs a second, the memory that is resident, and the most that was so far, after ten thousand pairs, a hundred
# thousand and at the end. It ends with status 1 where an item is lost, doubled or overtaken, or a reply is another one.
#
# PQD names another pqd than the one that `rt run` left, and RECORDS another number than 256. The server runs with
# MALLOC_ARENA_MAX=1, as docs/WIRE.md advises. With an empty MALLOC_ARENA_MAX the C library keeps what it likes for each
# thread.
set -eu
pqd=$(realpath -m "${PQD:-$(dirname "$0")/../crates/pqd/out/pqd}")
if [ ! -x "$pqd" ]; then
    echo "there is no $pqd: \`rt run\` in crates/pqd leaves it there, and PQD=PATH names another one"
    exit 1
fi
export MALLOC_ARENA_MAX=${MALLOC_ARENA_MAX-1}
exec python3 -B "$(dirname "$0")/client/million.py" "$pqd" "${RECORDS:-256}" "${1:-1000000}"
