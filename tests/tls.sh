#!/usr/bin/env bash
# A client and a server with TLS between them, by the configurations in examples/stunnel, on the loopback: with the
# certificate that they name, and with another one. It takes the program that the last `rt ci`, or `rt run` in
# crates/pqd, left, or the one that PQD names.
set -eu
cd "$(dirname "$0")/.."
. tests/cases.sh
pqd=${PQD:-$PWD/crates/pqd/out/pqd}
need "$pqd"
for program in stunnel4 openssl; do
    command -v "$program" > /dev/null || { leave_out "TLS, without $program"; count; exit; }
done
running=()
trap 'kill "${running[@]}" 2> /dev/null || true; wait; rm -r "$work"' EXIT

free_port() {
    python3 -c 'import socket; s = socket.socket(); s.bind(("127.0.0.1", 0)); print(s.getsockname()[1])'
}

# A certificate that stands for itself: NAME OF
certificate() {
    openssl req -x509 -newkey ec -pkeyopt ec_paramgen_curve:prime256v1 -nodes -days 2 -subj "/CN=$2" \
        -addext "subjectAltName=DNS:$2" -keyout "$work/$1.key" -out "$work/$1.pem" 2> /dev/null
}

# A configuration, with what stands in it in place of what does: FILE OLD NEW ..
with() {
    local file=$1 script=()
    shift
    while [ $# -gt 0 ]; do
        script+=(-e "s#$1#$2#")
        shift 2
    done
    sed "${script[@]}" "$file"
}

# Begins a stunnel: NAME
tunnel() {
    : > "$work/$1.log"
    stunnel4 "$work/$1.conf" 2> "$work/$1.log" &
    running+=($!)
    for ((turn = 0; turn < 500; turn++)); do
        ! grep -q 'Configuration successful' "$work/$1.log" || return 0
        sleep 0.01
    done
    judge "$1" "$(cat "$work/$1.log")"
}

head -c 24 /dev/urandom | base64 > "$work/secret"
certificate server broker.example
certificate other broker.example
certificate elsewhere another.example
"$pqd" serve --port 0 --secret "$work/secret" > "$work/said" 2> "$work/warned" < /dev/null &
running+=($!)
for ((turn = 0; turn < 500; turn++)); do
    ! grep -q '^listening ' "$work/said" || break
    sleep 0.01
done
port=$(sed -n 's/^listening .*://p' "$work/said")
# Each server has a certificate, and each client trusts one: the broker's own, another one of the same name, and one of
# another name, which it trusts.
for of in server other elsewhere; do
    near=$(free_port) far=$(free_port) trusted=server
    [ "$of" != elsewhere ] || trusted=elsewhere
    with examples/stunnel/server.conf 0.0.0.0:7443 "127.0.0.1:$far" 127.0.0.1:7070 "127.0.0.1:$port" \
        /etc/wistaku/server.pem "$work/$of.pem" /etc/wistaku/server.key "$work/$of.key" > "$work/far-$of.conf"
    with examples/stunnel/client.conf 127.0.0.1:7070 "127.0.0.1:$near" broker.example:7443 "127.0.0.1:$far" \
        /etc/wistaku/authority.pem "$work/$trusted.pem" > "$work/near-$of.conf"
    tunnel "far-$of"
    tunnel "near-$of"
    python3 -B - "127.0.0.1:$near" "$(cat "$work/secret")" > "$work/out" 2>&1 << 'PYTHON' || true
import sys
sys.path.insert(0, "clients/python")
from wistaku import Broker, Unreachable
try:
    with Broker([sys.argv[1]], client=0, secret=sys.argv[2], patience=1.0) as broker:
        queue = broker.log("jobs", create=True)
        queue.put(b"hello")
        print(queue.take())
except Unreachable:
    print("unreachable")
PYTHON
    wanted=unreachable
    [ "$of" != server ] || wanted="b'hello'"
    judge "a certificate: $of" "$([ "$(cat "$work/out")" = "$wanted" ] || cat "$work/out" "$work"/*.log)"
done
# Nothing of it can be read on the way.
python3 -B - "$far" > "$work/out" 2>&1 << 'PYTHON' || true
import contextlib, socket, sys
said = b""
with contextlib.suppress(ConnectionResetError), socket.create_connection(("127.0.0.1", int(sys.argv[1])), 5) as plain:
    plain.sendall(b'{"op":"list"}\n')
    said = plain.recv(1000)
print(b"queues" in said or b"error" in said)
PYTHON
judge 'a client without TLS' "$([ "$(tail -n 1 "$work/out")" = False ] || cat "$work/out")"
count
