#!/usr/bin/env bash
# Pairs of a put and a take a second of `pqd serve` by 1, 2, 4 and 8 connections with 64 requests in flight on each,
# over those by one: each connection with queues of its own, and all with one queue together. All share one session,
# each act taking its lock. And the processor's time of a pair by eight over that by one. ROUNDS rounds (5), the best of
# each figure. Printed, not tested. PQD names another pqd than the one that `rt run` left.
set -eu
pqd=$(realpath -m "${PQD:-$(dirname "$0")/../crates/pqd/out/pqd}")
if [ ! -x "$pqd" ]; then
    echo "there is no $pqd: \`rt run\` in crates/pqd leaves it there, and PQD=PATH names another one"
    exit 1
fi
cd "$(dirname "$0")/client"
work=$(mktemp -d)
server=
trap '[ -z "$server" ] || kill "$server" 2> /dev/null || true; rm -r "$work"' EXIT
gcc -O2 -pthread -o "$work/pairs" ./*.c

# Pairs a second, latencies, and microseconds of the server's processor a pair, of a new server: WHICH CONNECTIONS PAIRS
measure() {
    local port
    : > "$work/listening"
    "$pqd" serve --clients 16 --records 4096 --port 0 --workers 8 > "$work/listening" &
    server=$!
    until grep -q '^listening ' "$work/listening"; do
        kill -0 "$server" 2> /dev/null || { echo "pqd does not serve" >&2; exit 1; }
        sleep 0.1
    done
    port=$(sed -n 's/^listening .*://p' "$work/listening")
    echo "$1 $2 $("$work/pairs" "$1" "$port" "$2" 64 "$3" 2 "$server")"
    kill "$server"
    wait "$server" 2> /dev/null || true
    server=
}

# In turns, so that each sees the same machine. A client has room for 4,096 calls in a queue: with its own it goes from
# one to the next.
for ((round = 0; round < ${ROUNDS:-5}; round++)); do
    for connections in 1 2 4 8; do
        measure pqd "$connections" 16000
        measure together "$connections" 2000
    done
done > "$work/measured"

awk '
    {
        row = $1 " " $2
        if (!(row in rate) || $3 > rate[row]) rate[row] = $3
        if (!(row in cost) || $7 < cost[row]) cost[row] = $7
    }
    END {
        name["pqd"] = "queues of their own"
        name["together"] = "one queue together"
        for (which in name) {
            printf "%s:\n", name[which]
            for (connections = 1; connections <= 8; connections *= 2) {
                row = which " " connections
                printf "    %d connection%s: %.0f pairs a second, ratio %.2f; %.1f us of processor a pair\n", \
                    connections, connections == 1 ? "" : "s", rate[row], rate[row] / rate[which " 1"], cost[row]
            }
            printf "    processor a pair, by eight over by one: %.2f\n", cost[which " 8"] / cost[which " 1"]
        }
    }' "$work/measured"
uptime
