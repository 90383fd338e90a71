#!/usr/bin/env bash
# Calls a second of the processor time of `pqd pipe`, by four clients, with at most 1,600 calls behind and with 14,400
# and more: no act walks what happened before, so the time over the time is at most 1.2. And calls a second of a log
# queue over those of a durable one, requests and replies included. Printed, not tested. PQD names another pqd than the
# one that `rt run` left.
set -eu
pqd=$(realpath -m "${PQD:-$(dirname "$0")/../crates/pqd/out/pqd}")
if [ ! -x "$pqd" ]; then
    echo "there is no $pqd: \`rt run\` in crates/pqd leaves it there, and PQD=PATH names another one"
    exit 1
fi
python3 -B "$(dirname "$0")/client/timed_pipe.py" acts "$pqd" "${ROUNDS:-8}" | awk '
    {
        printf "%s: %.0f calls a second with at most %d calls behind, %.0f with %d and more: ratio %.2f\n", \
            $1, $2 / $5, $3, $2 / $6, $4, $6 / $5
        rate[$1] = $2 / $5
    }
    END { printf "calls a second of a log queue over those of a durable one: %.2f\n", rate["log"] / rate["durable"] }'
