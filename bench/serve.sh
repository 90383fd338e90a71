#!/usr/bin/env bash
# serve.sh [--renew] [PQD]: pairs of a put and a take a second of `pqd serve` on the loopback, beside beanstalkd and
# redis where they are installed (`apt-get install beanstalkd redis-server`): the latency of a request, and the
# processor time of the server a pair. By 1 and by 8 connections, with one request at a time and with 64 in flight on
# each. One client program for all (bench/client), the servers in turn, each started anew, ROUNDS rounds (5), the best
# of each figure. Printed, not tested.
#
# A pair is, on a queue that the connection has for itself: of pqd a put and a take of a durable queue; of beanstalkd
# put, reserve and delete of a job, the delete once the job is known; of redis RPUSH and LPOP. Without a journal pqd keeps
# its words in memory and writes an image when it stops, so its like are the peers in memory. The others write to the
# folder of TMPDIR: pqd with a journal that is kept each second (`pqd-second`) or before each reply (`pqd-always`), redis
# likewise, beanstalkd with its own pause between two syncs or none (`beanstalkd-b0`). Where ETCD has the addresses of
# members of etcd (HOST:PORT,..), pqd with a journal there is measured too (`pqd-etcd`).
#
# With --renew only pqd is measured, with 8 clients: for a minute (LASTS seconds) in which its queues are renewed over
# and over, beside a second without, or less, of which a client has room for no more. Each connection has a queue for
# itself (`own`), or all have one together.
set -eu
renewed=
if [ "${1:-}" = --renew ]; then
    renewed=yes
    shift
fi
pqd=$(realpath -m "${1:-${PQD:-$(dirname "$0")/../crates/pqd/out/pqd}}")
if [ ! -x "$pqd" ]; then
    echo "there is no $pqd: \`rt run\` in crates/pqd leaves it there, and bench/serve.sh PATH takes another one"
    exit 1
fi
cd "$(dirname "$0")/client"
rounds=${ROUNDS:-5}
# A client of pqd has room for 8 times 4,096 calls.
pairs=16000
# A run ends after so many seconds, where its pairs are not all made.
seconds=2
work=$(mktemp -d)
server=

stop_server() {
    [ -n "$server" ] || return 0
    kill "$server" 2> /dev/null || true
    wait "$server" 2> /dev/null || true
    server=
}

trap 'stop_server; rm -r "$work"' EXIT
gcc -O2 -pthread -o "$work/pairs" ./*.c

free_port() {
    python3 -c 'import socket; s = socket.socket(); s.bind(("127.0.0.1", 0)); print(s.getsockname()[1])'
}

# The port is the one that pqd prints, once it listens: CLIENTS OPTION..
start_pqd() {
    : > "$work/listening"
    "$pqd" serve "${@:2}" --clients "$1" --records 4096 --port 0 --workers 8 > "$work/listening" &
    server=$!
    until grep -q '^listening ' "$work/listening"; do
        kill -0 "$server" 2> /dev/null || { echo "pqd does not serve" >&2; exit 1; }
        sleep 0.1
    done
    port=$(sed -n 's/^listening .*://p' "$work/listening")
}

# Starts a server by its row in the table, in a new folder. It may not listen yet: the client tries again.
start() {
    rm -rf "$work/data"
    mkdir "$work/data"
    port=$(free_port)
    local redis=(redis-server --port "$port" --bind 127.0.0.1 --dir "$work/data" --save "")
    case $1 in
        pqd)
            start_pqd 16
            return
            ;;
        pqd-second | pqd-always)
            start_pqd 16 --journal "$work/data/journal" --sync "${1#pqd-}"
            return
            ;;
        pqd-etcd)
            # (a log of its own, which nobody has yet)
            start_pqd 16 --journal "etcd://$ETCD/bench/r$RANDOM$RANDOM"
            return
            ;;
        beanstalkd) beanstalkd -l 127.0.0.1 -p "$port" > /dev/null & ;;
        beanstalkd-b0) beanstalkd -l 127.0.0.1 -p "$port" -b "$work/data" -f 0 > /dev/null & ;;
        beanstalkd-b) beanstalkd -l 127.0.0.1 -p "$port" -b "$work/data" > /dev/null & ;;
        redis) "${redis[@]}" --appendonly no > /dev/null & ;;
        redis-everysec) "${redis[@]}" --appendonly yes --appendfsync everysec > /dev/null & ;;
        redis-always) "${redis[@]}" --appendonly yes --appendfsync always > /dev/null & ;;
    esac
    server=$!
}

# What the client prints of a server that was started anew: SERVER CONNECTIONS IN-FLIGHT.
measure() {
    local protocol=${1%%-*} figures
    start "$1"
    figures=$("$work/pairs" "$protocol" "$port" "$2" "$3" "$pairs" "$seconds" "$server")
    stop_server
    echo "$2 $3 $1 $figures"
}

# A load of a minute with renewals, beside one without: WHICH CONNECTIONS IN-FLIGHT WITHOUT PAIRS.
measure_renewed() {
    local before after
    start_pqd 8
    before=$("$work/pairs" "$4" "$port" "$2" "$3" "$5" 1 "$server")
    stop_server
    start_pqd 8 --renew
    after=$("$work/pairs" "$1" "$port" "$2" "$3" 10000000 "${LASTS:-60}" "$server")
    stop_server
    echo "$1 $2 $3 $before $after"
}

if [ -n "$renewed" ]; then
    for load in "1 1" "1 64" "8 1" "8 64"; do
        # shellcheck disable=SC2086
        measure_renewed own $load pqd "$pairs"
        # shellcheck disable=SC2086
        measure_renewed together $load together 2000
    done | awk '
        {
            printf "%s, %d connection%s, %d in flight on each: %.0f pairs a second, renewed %.0f, which is %.2f; ", \
                $1, $2, $2 == 1 ? "" : "s", $3, $4, $10, $10 / $4
            printf "99.9%% %.1f us, renewed %.1f us; longest %.1f us, renewed %.1f us\n", $7, $13, $9, $15
        }'
    uptime
    exit
fi

servers=(pqd pqd-second pqd-always)
[ -z "${ETCD:-}" ] || servers+=(pqd-etcd)
if command -v beanstalkd > /dev/null; then
    servers+=(beanstalkd beanstalkd-b beanstalkd-b0)
else
    echo "without beanstalkd: apt-get install beanstalkd"
fi
if command -v redis-server > /dev/null; then
    servers+=(redis redis-everysec redis-always)
else
    echo "without redis: apt-get install redis-server"
fi

for ((round = 0; round < rounds; round++)); do
    for load in "1 1" "1 64" "8 1" "8 64"; do
        for each in "${servers[@]}"; do
            # shellcheck disable=SC2086
            measure "$each" $load
        done
    done
done > "$work/measured"

awk '
    {
        row = $1 " " $2 " " $3
        if (!(row in rate)) { rows[++count] = row }
        if (!(row in rate) || $4 > rate[row]) { rate[row] = $4 }
        for (column = 5; column <= 8; column++) {
            if (!((row, column) in least) || $column < least[row, column]) { least[row, column] = $column }
        }
    }
    END {
        for (at = 1; at <= count; at++) {
            row = rows[at]
            split(row, of, " ")
            load = of[1] " " of[2]
            if (load != before) {
                printf "\n%d connection%s, %d in flight on each\n", of[1], of[1] == 1 ? "" : "s", of[2]
                form = "%-15s %12s %10s %10s %10s %10s %12s %12s\n"
                printf form, "", "pairs a", "latency", "", "", "processor", "pqd over it:", ""
                printf form, "", "second", "50% us", "99% us", "99.9% us", "us a pair", "pairs", "processor"
                before = load
            }
            pqd = load " pqd"
            printf "%-15s %12.0f %10.1f %10.1f %10.1f %10.2f %12.2f %12.2f\n", of[3], rate[row], \
                least[row, 5], least[row, 6], least[row, 7], least[row, 8], \
                rate[pqd] / rate[row], least[pqd, 8] / least[row, 8]
        }
    }' "$work/measured"
uptime
