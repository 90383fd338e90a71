#!/usr/bin/env bash
# `pqd` with a journal: killed behind replies, stopped before, within and after each call of the system by which it
# writes, each such call failing, full files, refused memory, journals that are cut off, damaged, in use or none; a
# machine that loses its power there; and file systems that are full or may not be written. It takes the program that
# the last `rt ci`, or `rt run` in crates/pqd, left, or the one that PQD names.
set -eu
cd "$(dirname "$0")/.."
. tests/cases.sh
pqd=${PQD:-$PWD/crates/pqd/out/pqd}
need "$pqd"
for library in killing refusing; do
    "$(dirname "$(rt doc)")/toolchain/bin/clang" --target=x86_64-unknown-linux-gnu -shared -fPIC -nostdlib \
        -fuse-ld=lld -o "$work/$library.so" "tests/$library.c"
done

# A program of tests/ prints the lines that are stored beside it: NAME LIBRARY..
tells() {
    python3 -B "tests/$1.py" "$pqd" "${@:2}" > "$work/out" 2>&1 || true
    difference "$1" "tests/$1.txt" "$work/out"
}
judge 'journaled' "$(tells journaled "$work/killing.so" "$work/refusing.so")"
judge 'losing power' "$(tells losing_power "$work/killing.so")"
# Where this user may mount file systems: small ones, filled ones, and such as may not be written.
may_mount='mount -t tmpfs -o size=4096 tmpfs "$0" && mount -o remount,ro "$0" && mount -o remount,rw "$0"'
if unshare --map-root-user --mount sh -c "$may_mount" "$work" 2> /dev/null; then
    unshare --map-root-user --mount python3 -B tests/mounted.py "$pqd" > "$work/out" 2>&1 || true
    judge 'mounted' "$(difference mounted tests/mounted.txt "$work/out")"
else
    leave_out 'tests/mounted.py, since no file system may be mounted here'
fi
# The replies with a journal are those without one.
for run in first second third; do
    status=0
    "$pqd" pipe --clients 1 --records 2 --journal "$work/journal" < "tests/pqd/$run-run.in" \
        > "$work/out" 2> "$work/err" || status=$?
    compare "the $run run with a journal" 0 "$status" "tests/pqd/$run-run.out" /dev/null
done
count
