#!/usr/bin/env bash
# The units in examples/systemd, as `systemd-analyze verify` reads them: it finds nothing to say. A unit with a wrong line
# is seen to be told. It takes the program that the last `rt ci`, or `rt run` in crates/pqd, left, or the one that PQD
# names.
set -eu
cd "$(dirname "$0")/.."
. tests/cases.sh
pqd=${PQD:-$PWD/crates/pqd/out/pqd}
need "$pqd"
command -v systemd-analyze > /dev/null || { leave_out 'units, without systemd-analyze'; count; exit; }

# What is said of a unit, with the programs that are there: FILE
verified() {
    local status=0 unit
    unit=$work/$(basename "$1")
    cp examples/systemd/*.service "$work"
    # (a program that is not there, as an etcd, stands for itself by one that is)
    sed -e "s#^\(ExecStart=\|ExecStop=\)/usr/local/bin/pqd#\1$pqd#" -e 's#^ExecStart=/usr/[a-z/]*bin/etcd\b#ExecStart=/bin/true#' \
        "$1" > "$unit"
    systemd-analyze verify --man=no "$unit" 2>&1 || status=$?
    [ "$status" -eq 0 ] || echo "status $status"
}

for unit in examples/systemd/*.service; do
    judge "$unit" "$(verified "$unit")"
done
mkdir "$work/bent"
sed 's/^ProtectSystem=/ProtectSystems=/' examples/systemd/pqd.service > "$work/bent/pqd.service"
judge 'a wrong line is told' "$(verified "$work/bent/pqd.service" | grep -q ProtectSystems || echo 'it is not')"
count
