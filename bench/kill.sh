#!/usr/bin/env bash
# kill.sh [--journal] [MINUTES]: `pqd serve` killed (SIGKILL) at random moments for a minute, or so many. Eight clients
# put and take at random in eight queues, four of each kind, and keep their histories. The server is killed while they
# call, stopped in order, or killed while it stops, and begins again on its image, which is that of the last stop: so
# what came after it is lost, and nothing else is. Each time a broker on a copy of the image says what each client is
# told, answers the last numbers again, and hands out all that its queues hold, and each history up to the stop must be
# explained with that by a first-in-first-out order. Prints what was seen; at a difference that, with status 1. PQD
# names another pqd than the one that `rt run` left, RECORDS how many calls each client has in a queue (512).
#
# With --journal the server has one, kept by a policy that is drawn, and with renewals or not; each client has 64 calls
# in a queue, so that renewals come often. It is killed while clients call, while it starts, while it recovers after a
# crash, and at calls of the system by which it compacts its journal or writes what a renewal changed (tests/killing.c).
# Compactions come often where its files are full again and again. It begins again on its journal: nothing that was
# answered is lost. Each client is told of its last call, a number without an answer is sent again, and a reply that was
# told stays the same. At each stop in order the journal leaves the words of the image, as a plain program reads it. At
# the end each history over all kills is explained, with all that the queues held: by the order that all files of the
# journal are, as a plain program reads them (bench/plain/order.py), and by `pqx check`. PQX names another pqx.
set -eu
# The program that PQD or PQX names, by the path to it: PROGRAM PATH
need() {
    [ ! -x "$2" ] || return 0
    echo "there is no $2: \`rt run\` in crates/$1 leaves it there, and ${1^^}=PATH names another one"
    exit 1
}
root=$(realpath "$(dirname "$0")/..")
pqd=$(realpath -m "${PQD:-$root/crates/pqd/out/pqd}")
need pqd "$pqd"
if [ "${1:-}" != --journal ]; then
    exec python3 -B "$root/bench/client/kill.py" "$pqd" "${1:-1}"
fi
pqx=$(realpath -m "${PQX:-$root/crates/pqx/out/pqx}")
need pqx "$pqx"
work=$(mktemp -d)
trap 'rm -r "$work"' EXIT
"$(dirname "$(rt doc)")/toolchain/bin/clang" --target=x86_64-unknown-linux-gnu -shared -fPIC -nostdlib -fuse-ld=lld \
    -o "$work/killing.so" "$root/tests/killing.c"
python3 -B "$root/bench/client/kill_journal.py" "$pqd" "$pqx" "$work/killing.so" "${2:-1}"
