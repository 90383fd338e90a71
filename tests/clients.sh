#!/usr/bin/env bash
# clients.sh [KILLS]: the client in clients/python, as pip installs it where pip is there. Each of its calls, every
# error by name, a connection that is cut at every place of a line and of its reply, a process that dies at every
# moment of a call, and a server with a journal that is killed (SIGKILL) under it: so often in all, or 60 times.
# Clients that do one thing wrong are seen to be caught. With KILLS it plays the kills alone, and says what it
# counted. SEED names a run. It takes the programs that the last `rt ci`, or `rt run`, left, or those that PQD and PQX
# name.
set -eu
cd "$(dirname "$0")/.."
. tests/cases.sh
pqd=${PQD:-$PWD/crates/pqd/out/pqd}
pqx=${PQX:-$PWD/crates/pqx/out/pqx}
need "$pqd" "$pqx"
kills=${1:-60}

# Clients under kills: NAME WORD..
play() {
    local name=$1 status=0
    shift
    python3 -B "$@" > "$work/out" 2>&1 || status=$?
    judge "$name" "$([ "$status" -eq 0 ] || cat "$work/out")"
    [ "$kills" -eq 60 ] || printf '%s: %s\n' "$name" "$(tail -n 1 "$work/out")"
}

# A wrong client is caught, by what was lost, doubled or not explained, within 600 kills; 10 to 50 were seen to do: NAME
caught() {
    python3 -B tests/clients/kills.py "$pqd" "$pqx" 600 "$1" > "$work/out" 2>&1 || true
    judge "the wrong client $1" "$(grep -q '^WRONG: ' "$work/out" || cat "$work/out")"
}

if [ $# -eq 0 ]; then
    if python3 -m pip install --quiet --no-deps --no-index --target "$work/site" ./clients/python 2> "$work/err"; then
        export SITE=$work/site
    else
        leave_out "pip install ./clients/python, as pip does not work here: $(tail -n 1 "$work/err")"
    fi
    for part in calls cut; do
        status=0
        timeout 900 python3 -B "tests/clients/$part.py" "$pqd" > "$work/cases" 2> "$work/err" || status=$?
        judge "$part" "$([ "$status" -eq 0 ] || { echo "status $status" && cat "$work/err"; })"
        while IFS=$'\t' read -r name said; do
            judge "$name" "$said"
        done < "$work/cases"
    done
    for wrong in NewNumber TrustsTold Forgets NotNoted TakesAtOnce; do
        caught "$wrong"
    done
fi
play 'single calls and batches' tests/clients/kills.py "$pqd" "$pqx" $((kills * 3 / 4))
play 'long batches' tests/clients/batches.py "$pqd" $((kills / 4))
count
