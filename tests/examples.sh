#!/usr/bin/env bash
# The examples as a user runs them: clients of one `pqd serve`, which is stopped at the end and leaves an image. What
# each prints is compared to the letter with tests/examples/NAME.out. It takes the program that the last `rt ci`, or
# `rt run` in crates/pqd, left. The client in shell needs `nc` (netcat-openbsd) and `jq`, the unit `systemd-analyze`, and
# the broker that outlives its machine `etcd`; where they are not there, these are left out, which is said.
set -eu
cd "$(dirname "$0")/.."
. tests/cases.sh
pqd=${PQD:-$PWD/crates/pqd/out/pqd}
need "$pqd"

# Runs a client of the server at that port, and compares what it prints: NAME WORD..
try() {
    local name=$1 status=0
    shift
    timeout 60 "$@" "$port" > "$work/out" 2> "$work/err" || status=$?
    compare "$name" 0 "$status" "tests/examples/$name.out" /dev/null
}

"$pqd" serve --port 0 --image "$work/image" > "$work/said" 2> "$work/warned" &
server=$!
port=
for _ in $(seq 100); do
    port=$(sed -n 's/^listening 127\.0\.0\.1:\([0-9]*\)$/\1/p' "$work/said")
    [ -z "$port" ] || break
    sleep 0.1
done

cp tests/examples/image.out "$work/image.out"
try client.py python3 examples/client.py
try resume.py python3 examples/resume.py
status=0
timeout 60 python3 examples/killed.py "$pqd" > "$work/out" 2> "$work/err" || status=$?
compare killed.py 0 "$status" tests/examples/killed.py.out /dev/null
if command -v nc > /dev/null && command -v jq > /dev/null; then
    try client.sh sh examples/client.sh
else
    leave_out 'examples/client.sh, which needs nc and jq'
    # The image has not the queue that it would have made.
    sed -i 's/,{"kind":"durable","queue":"lines"}//' "$work/image.out"
fi

if command -v etcd > /dev/null; then
    status=0
    timeout 120 examples/outlive.sh "$pqd" > "$work/out" 2> "$work/err" || status=$?
    compare outlive.sh 0 "$status" tests/examples/outlive.out /dev/null
else
    leave_out 'examples/outlive.sh, which needs etcd (Debian: etcd-server)'
fi

# It is stopped as its unit for systemd says, whose quotes are systemd's.
bash -c "$(sed -n "s/^ExecStop=[^ ]* -c '\(.*\)'\$/\1/p" examples/systemd/pqd.service | sed "s/7070/$port/" | xargs -0 printf '%b')" \
    > "$work/out"
status=0
wait "$server" || status=$?
# The process that resume.py kills may leave a connection that fails.
grep -v 'a connection ended: 26 ReadFailed$' "$work/warned" > "$work/err" || true
compare stop 0 "$status" tests/examples/stop.out /dev/null

# systemd takes the unit.
if command -v systemd-analyze > /dev/null; then
    sed "s#/usr/local/bin/pqd#$(realpath "$pqd")#" examples/systemd/pqd.service > "$work/pqd.service"
    status=0
    systemd-analyze verify "$work/pqd.service" > "$work/verified" 2>&1 || status=$?
    judge examples/systemd/pqd.service "$([ "$status" -eq 0 ] || cat "$work/verified")"
else
    leave_out 'examples/systemd/pqd.service, which needs systemd-analyze'
fi

# The image is that of the queues that the clients made.
status=0
printf '{"op":"list"}\n' | "$pqd" pipe --image "$work/image" > "$work/out" 2> "$work/err" || status=$?
compare image 0 "$status" "$work/image.out" /dev/null
count
