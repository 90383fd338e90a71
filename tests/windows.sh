#!/usr/bin/env bash
# The laws of crates/windows, tried by brute force on drawn windows; and each of them bent, which has to be seen: a premise
# is left out, or a number is off by one.
set -eu
cd "$(dirname "$0")/.."
. tests/cases.sh

# A law holds of all that is drawn, and each bent form of it does not: LAW BENT..
law() {
    local name=$1 bent
    shift
    if python3 -B tests/windows.py "$name" > "$work/out" 2>&1; then judge "$name" ''; else judge "$name" "$(cat "$work/out")"; fi
    for bent in "$@"; do
        python3 -B tests/windows.py "$name" "$bent" > "$work/out" 2>&1 || true
        judge "$name, bent: $bent" "$(grep -q "^$name does not hold of " "$work/out" || cat "$work/out")"
    done
}

law value_line two turned
law ranges one_more
law fitting begins ends
law moments first_left_out
law crowded ends in_before
law dropping puts_alone
law last_takes nothing_stays
law calls sorted moment
count
