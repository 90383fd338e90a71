#!/usr/bin/env bash
# A broker that outlives its machine: outlive.sh PQD. Three members of etcd run on this machine, as they would on three,
# and two `pqd`, of which one stands by. A client is served by the first one, which is killed (`kill -9`). Then the
# client sends its number again at the other one, as it would that never saw the reply.
set -eu
pqd=$1
work=$(mktemp -d)
started=
trap 'kill -9 $started 2> /dev/null; sleep 0.2; rm -r "$work"' EXIT

# Ports that nobody uses: two of each member, and one of each broker.
read -r -a ports < <(python3 -c '
import socket
held = [socket.create_server(("127.0.0.1", 0)) for _ in range(8)]
print(*(it.getsockname()[1] for it in held))')
peers=a=http://127.0.0.1:${ports[3]},b=http://127.0.0.1:${ports[4]},c=http://127.0.0.1:${ports[5]}
for k in 0 1 2; do
    client=http://127.0.0.1:${ports[k]} peer=http://127.0.0.1:${ports[k + 3]}
    etcd --name "$(printf "\\$(printf %o $((97 + k)))")" --data-dir "$work/etcd$k" --listen-client-urls "$client" \
        --advertise-client-urls "$client" --listen-peer-urls "$peer" --initial-advertise-peer-urls "$peer" \
        --initial-cluster "$peers" --initial-cluster-token outlive --pre-vote --logger zap --log-outputs "$work/log$k" \
        > "$work/etcd$k.said" 2>&1 &
    started+=" $!"
    disown
done

# A pqd of this port over the log, and what it is told more: PORT WORD..
broker() {
    local port=$1
    shift
    "$pqd" serve --port "$port" "$@" \
        --journal "etcd://127.0.0.1:${ports[0]},127.0.0.1:${ports[1]},127.0.0.1:${ports[2]}/broker/jobs" \
        > "$work/said$port" 2> "$work/warned$port" &
    last=$!
    started+=" $last"
    disown
}

# Waits until a file has these words: FILE WORDS
until_said() {
    for _ in $(seq 600); do
        ! grep -q "$2" "$1" || return 0
        sleep 0.1
    done
    cat "$work"/said* "$work"/warned* >&2
    return 1
}

# Sends a line to the broker of this port, and shows its reply: PORT LINE
ask() {
    exec 3<> "/dev/tcp/127.0.0.1/$1"
    printf '%s\n' "$2" >&3
    read -r reply <&3
    exec 3>&-
    printf '%s\n    %s\n' "$2" "$reply"
}

broker "${ports[6]}"
first=$last
until_said "$work/said${ports[6]}" listening
broker "${ports[7]}" --standby
until_said "$work/warned${ports[7]}" serves
echo 'one pqd serves, another one stands by'
ask "${ports[6]}" '{"op":"create","queue":"jobs","kind":"log"}'
ask "${ports[6]}" '{"op":"put","client":0,"queue":"jobs","number":1,"value":"6f6e65"}'
kill -9 "$first"
echo 'the one that serves is killed'
until_said "$work/said${ports[7]}" listening
echo 'the other one has taken over: the same number again, the next one, and what there is'
ask "${ports[7]}" '{"op":"put","client":0,"queue":"jobs","number":1,"value":"6f6e65"}'
ask "${ports[7]}" '{"op":"put","client":0,"queue":"jobs","number":2,"value":"74776f"}'
for number in 1 2 3; do
    ask "${ports[7]}" '{"op":"take","client":1,"queue":"jobs","number":'"$number"'}'
done
