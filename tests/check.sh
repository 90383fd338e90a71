#!/usr/bin/env bash
# What pqx check says of recordings: the rows of tests/check/rows, each NAME.in with what is wanted of it on standard
# output (NAME.out) and on standard error (NAME.err); entries of orders; drawn recordings, of one queue and of several,
# and with values that are put more than once, against brute force; devices that fail, and memory; histories of Jepsen
# (tests/check/jepsen). It takes the program that the last `rt ci`, or `rt run` in crates/pqx, left, or the one that PQX
# names.
set -eu
cd "$(dirname "$0")/.."
. tests/cases.sh
pqx=${PQX:-$PWD/crates/pqx/out/pqx}
need "$pqx"
rows=tests/check/rows

# The status that goes with what is wanted: NAME
wanted_status() {
    [ ! -e "$rows/$1.err" ] || { echo 2; return; }
    if grep -qE '^(queue .*: )?impossible' "$rows/$1.out"; then echo 1; return; fi
    if grep -qE '^(queue .*: )?undecided' "$rows/$1.out"; then echo 3; else echo 0; fi
}

for row in "$rows"/*.in; do
    name=$(basename "$row" .in)
    status=0 out=/dev/null err=/dev/null
    "$pqx" check < "$row" > "$work/out" 2> "$work/err" || status=$?
    [ ! -e "$rows/$name.out" ] || out=$rows/$name.out
    [ ! -e "$rows/$name.err" ] || err=$rows/$name.err
    compare "check $name" "$(wanted_status "$name")" "$status" "$out" "$err"
done

# The entries of an order.
for name in final base texts put-told-not-taken; do
    status=0
    "$pqx" check --order < "$rows/$name.in" > "$work/out" 2> "$work/err" || status=$?
    compare "check --order $name" 0 "$status" "tests/check/$name.order" /dev/null
done

# Pages: the same on standard output, and the stored page in the file. A file that cannot be written.
for name in passed-over-two texts; do
    status=0
    "$pqx" check --page "$work/page" < "$rows/$name.in" > "$work/out" 2> "$work/err" || status=$?
    compare "check --page $name" "$(wanted_status "$name")" "$status" "$rows/$name.out" /dev/null
    judge "the page of $name" "$(difference 'the page' "tests/pages/check-$name.html" "$work/page")"
done
status=0
printf 'pqx: 27 WriteFailed\n' > "$work/wanted"
"$pqx" check --page "$work/none/page" < "$rows/texts.in" > "$work/out" 2> "$work/err" || status=$?
compare 'check --page without a folder' 1 "$status" "$rows/texts.out" "$work/wanted"

# Devices that fail.
status=0
printf 'pqx: 26 ReadFailed\n' > "$work/wanted"
"$pqx" check < tests > "$work/out" 2> "$work/err" || status=$?
compare 'check of a folder' 1 "$status" /dev/null "$work/wanted"
status=0
printf 'pqx: 27 WriteFailed\n' > "$work/wanted"
: > "$work/out"
"$pqx" check < "$rows/final.in" > /dev/full 2> "$work/err" || status=$?
compare 'check to a full output' 1 "$status" /dev/null "$work/wanted"

# Drawn recordings, each as brute force says, and what it names is in the recording.
status=0
PQX=$pqx python3 -B tests/check/drawn.py 1000 1 > "$work/out" 2>&1 || status=$?
judge 'drawn recordings' "$([ "$status" -eq 0 ] || tail -n 3 "$work/out")"
status=0
PQX=$pqx python3 -B tests/check/drawn.py 20000 1 100 > "$work/out" 2>&1 || status=$?
judge 'drawn recordings, many at once' "$([ "$status" -eq 0 ] || tail -n 3 "$work/out")"

# Drawn recordings in which values are put more than once.
status=0
PQX=$pqx python3 -B tests/check/repeated.py 10000 1 > "$work/out" 2>&1 || status=$?
judge 'drawn recordings with repeated values' "$([ "$status" -eq 0 ] || tail -n 3 "$work/out")"

# Drawn recordings of several queues.
status=0
PQX=$pqx python3 -B tests/check/queues.py 1000 1 > "$work/out" 2>&1 || status=$?
judge 'drawn recordings of several queues' "$([ "$status" -eq 0 ] || tail -n 3 "$work/out")"

# A recording that does not fit into the memory.
status=0
printf 'pqx: 6 NoMemory\n' > "$work/wanted"
python3 -B bench/client/recordings.py 200000 8 40 1 > "$work/recording"
(ulimit -v 40000 && exec "$pqx" check) < "$work/recording" > "$work/out" 2> "$work/err" || status=$?
compare 'check without memory' 1 "$status" /dev/null "$work/wanted"

# The recorder of README: threads on a queue that is right.
status=0
python3 -B examples/record.py | "$pqx" check > "$work/out" 2> "$work/err" || status=$?
judge 'examples/record.py' "$([ "$status" -eq 0 ] && grep -q '^explained: ' "$work/out" || head -n 2 "$work/out")"

# Histories of Jepsen, as examples/from_jepsen.py turns them into recordings; and what that reads.
for row in tests/check/jepsen/*.edn; do
    name=tests/check/jepsen/$(basename "$row" .edn)
    status=0 wanted=0
    [ "$(head -c 9 "$name.out")" = explained ] || wanted=1
    python3 -B examples/from_jepsen.py --crash kill "$row" | "$pqx" check > "$work/out" 2> "$work/err" || status=$?
    compare "check $name" "$wanted" "$status" "$name.out" /dev/null
done
status=0
python3 -B tests/check/edn.py > "$work/out" 2>&1 || status=$?
judge 'what from_jepsen.py reads' "$([ "$status" -eq 0 ] || tail -n 1 "$work/out")"

count
