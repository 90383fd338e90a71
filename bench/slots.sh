#!/usr/bin/env bash
# A queue of a broker beside a world of its own, both as scripts that pqx follows, by its processor time:
#
# - acts a second by the last of a broker's eight slots, through its session, beside those on a world;
# - a crash with its recovery, in a broker of 64 and of 4,096 records a client: it costs what was changed, so the one
#   over the other is at most 1.5;
# - the memory of a broker of 16 clients with 4,096 records each, by its largest resident size over the bytes of its
#   words: at most 1.2.
#
# Lines and what they print are a part of the times. Printed, not tested. PQX names another pqx than the one that
# `rt run` left.
set -eu
pqx=$(realpath -m "${PQX:-$(dirname "$0")/../crates/pqx/out/pqx}")
if [ ! -x "$pqx" ]; then
    echo "there is no $pqx: \`rt run\` in crates/pqx leaves it there, and PQX=PATH names another one"
    exit 1
fi
exec python3 -B "$(dirname "$0")/client/timed_scripts.py" "$pqx" "${ROUNDS:-40}"
