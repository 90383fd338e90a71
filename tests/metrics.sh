#!/usr/bin/env bash
# `pqd serve --metrics`: the numbers of a served broker over HTTP, with and without a journal, as JSON and as
# Prometheus reads them, the page that shows them, what is refused, silent and trickling connections beside it, and
# its end. The text of Prometheus is read by prometheus_client where Debian's or another Python has it. It takes the
# program that the last `rt ci`, or `rt run` in crates/pqd, left, or the one that PQD names.
set -eu
cd "$(dirname "$0")/.."
. tests/cases.sh
pqd=${PQD:-$PWD/crates/pqd/out/pqd}
need "$pqd"

# The Python that reads what Prometheus reads, if there is one.
reader=
for python in python3 /usr/bin/python3; do
    if [ -z "$reader" ] && "$python" -c 'import prometheus_client' 2> /dev/null; then reader=$python; fi
done
[ -n "$reader" ] || leave_out 'the text of /metrics as prometheus_client reads it, which is not here'

status=0
timeout 300 python3 -B tests/metrics.py "$pqd" "$reader" > "$work/cases" 2> "$work/err" || status=$?
judge 'metrics' "$([ "$status" -eq 0 ] || { echo "status $status" && cat "$work/err"; })"
while IFS=$'\t' read -r case said; do
    judge "$case" "$said"
done < "$work/cases"
count
