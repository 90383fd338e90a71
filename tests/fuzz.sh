#!/usr/bin/env bash
# The built pqx and pqd say what the plain programs of bench/plain say of what bench/fuzz.sh draws for some seconds with
# one seed. And plain programs that are wrong in one place are seen to differ, by the same seed: so the comparison can
# fail. It takes the programs that the last `rt ci`, or `rt run` in their folders, left, or those that PQD and PQX name.
set -eu
cd "$(dirname "$0")/.."
. tests/cases.sh
export TMPDIR=$work
pqd=${PQD:-$PWD/crates/pqd/out/pqd}
pqx=${PQX:-$PWD/crates/pqx/out/pqx}
need "$pqd" "$pqx"

# The right ones agree, and something of each kind was tried.
status=0
bench/fuzz.sh 0.12 1 > "$work/out" 2>&1 || status=$?
cat "$work/out"
said=
[ "$status" -eq 0 ] || said="status $status"
tail -n 1 "$work/out" | grep -qE '^scripts [1-9][0-9]*, lines [1-9][0-9]*, images [1-9][0-9]*, differences 0$' \
    || said+=' the last line is not that of a run without a difference'
judge 'the plain programs' "$said"

# What bench/fuzz.sh says of such a copy: FILE OLD NEW WHAT-DIFFERS
wrong() {
    local status=0 said=
    change "$1" "$2" "$3"
    # It ends at the first difference; the time is what a machine that has much to do may need.
    PLAIN=$work/plain bench/fuzz.sh 3 1 > "$work/out" 2>&1 || status=$?
    sed -n 's/^.* differs at \(seed 1, turn [0-9]*\): .*/a wrong one differs at \1/p' "$work/out"
    if [ "$status" -ne 1 ] || ! grep -qE "^$4.* differs at seed 1, turn [0-9]+: " "$work/out"; then
        said="status $status: $(cat "$work/out")"
    fi
    judge "plain programs with '$3' in $1" "$said"
}
wrong broker_machine.py 'self.cached = list(self.kept)' 'pass' 'broker (script|points)'
wrong broker_machine.py 'self.recovery[1] += 1' 'pass' 'broker (script|points)'
wrong broker_script.py 'was, self.remembered[word] = self.remembered[word], value' 'was = self.remembered[word]' broker
wrong broker_script.py 'if number == known:' 'if False:' 'broker (script|points)'
wrong broker.py 'if number < last:' 'if number <= last:' lines
wrong broker.py 'self.is_down = True' 'self.is_down = False' lines
wrong form.py '(?:[0-9a-f]{2})*' '(?:[0-9a-f]{2})+' lines
wrong image.py 'require(len(data) == 12 + 8 * count, "TrailingBytes")' 'pass' image
wrong image.py 'if not self.mark(number)]' 'if True]' '(image|lines)'
wrong machine.py 'self.cached = list(self.kept)' 'pass' '(broker )?(script|points|alone)'
wrong machine.py 'self.requests[port] = word' 'self.keep(word)' '(broker )?(script|points|alone)'
wrong machine.py 'self.effects.append([self.takers[value], "done", True])' 'pass' '(broker )?script'

count
