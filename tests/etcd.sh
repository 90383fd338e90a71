#!/usr/bin/env bash
# A journal in etcd: servers that take it over from each other while clients call, over a plain engine whose exchanges
# go wrong (tests/etcd/engine.py), each in each way and by draws, and over etcd itself where that is installed, whose
# members are killed, stopped, parted and emptied. SECONDS_EACH is how long each drawn story is (20), and SEED what is
# drawn; with PARTS, as `faults plain`, it plays these alone. README and docs/CLUSTER.md say what a log is.
set -eu
cd "$(dirname "$0")/.."
. tests/cases.sh
pqd=${PQD:-$PWD/crates/pqd/out/pqd}
pqx=${PQX:-$PWD/crates/pqx/out/pqx}
need "$pqd" "$pqx"
each=${SECONDS_EACH:-20}
seed=${SEED:-1}

# Whether a part is played: PART
is_part() {
    [[ " ${PARTS:-options announced faults plain etcd tls} " == *" $1 "* ]]
}

# A story ends with status 0, or says why not: KIND
story() {
    local status=0
    timeout $((${each%.*} + 600)) python3 -B tests/etcd/story.py "$pqd" "$pqx" "$1" "$each" "$seed" > "$work/out" 2>&1 \
        || status=$?
    [ "$status" -eq 0 ] || printf 'status %s\n' "$status" >> "$work/out"
    judge "a story over $1, seed $seed" "$([ "$status" -eq 0 ] || cat "$work/out")"
    [ -z "${SHOWN:-}" ] || cat "$work/out"
}

# A program that prints a line for each case, its name, a tab, and what is wrong or nothing: PROGRAM
cases_of() {
    local status=0 name said
    timeout 600 python3 -B "$1" "$pqd" > "$work/cases" 2> "$work/err" || status=$?
    judge "$1" "$([ "$status" -eq 0 ] || { echo "status $status" && cat "$work/err"; })"
    while IFS=$'\t' read -r name said; do
        judge "$name" "$said"
    done < "$work/cases"
}

# What is no log's address, and options that go with none.
refused() {
    local text=$1 status=0
    shift
    printf 'pqd: %s\n' "$text" > "$work/wanted"
    "$pqd" "$@" < /dev/null > "$work/out" 2> "$work/err" || status=$?
    compare "$*" 1 "$status" /dev/null "$work/wanted"
}
if is_part options; then
    for address in '' 127.0.0.1:2379 127.0.0.1:2379/ 127.0.0.1:2379/Jobs 127.0.0.1:2379/a//b 127.0.0.1:2379/a/0; do
        refused "the option '--journal' takes a file, or etcd://HOST:PORT,../NAME" pipe --journal "etcd://$address"
    done
    refused '35 NoEngine' pipe --journal etcd://127.0.0.1/jobs
    for place in '' host host: host:0 host:65536 host:port :7070 'a b:7070' a/b:7070; do
        refused "the option '--announce' takes HOST:PORT" \
            serve --port 0 --journal etcd://127.0.0.1:1/jobs --patience 1 "--announce=$place"
    done
    for place in host:1 10.0.0.4:7070 '[::1]:65535' broker-1.example_net:7070; do
        refused '35 NoEngine' serve --port 0 --journal etcd://127.0.0.1:1/jobs --patience 1 --announce "$place"
    done
fi
if is_part announced; then
    cases_of tests/etcd/announced.py
fi
if is_part faults; then
    cases_of tests/etcd/faults.py
fi
if is_part plain; then
    story plain
fi
if ! command -v etcd > /dev/null; then
    leave_out 'a story over etcd, which needs etcd (Debian: etcd-server)'
elif is_part etcd; then
    story etcd
fi
if ! command -v etcd > /dev/null || ! command -v stunnel4 > /dev/null || ! command -v openssl > /dev/null; then
    leave_out 'a log in an etcd that is asked by TLS, which needs etcd, stunnel4 and openssl'
elif is_part tls; then
    cases_of tests/etcd/tls.py
fi
count
