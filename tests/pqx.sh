#!/usr/bin/env bash
# What no proof can see of pqx: what the built program writes on standard output and on standard error, and its status,
# on good and bad command lines, scripts, inputs and outputs, compared to the letter. It takes the program that the last
# `rt ci`, or `rt run` in crates/pqx, left, or the one that PQX names.
set -eu
cd "$(dirname "$0")/.."
. tests/cases.sh
pqx=${PQX:-$PWD/crates/pqx/out/pqx}
need "$pqx"
data=tests/scenarios

# Runs pqx with these words on the standard input that it was given. What is wanted stands in tests/pqx/NAME.out and
# NAME.err, where there is no such file nothing: NAME STATUS WORD..
try() {
    local name=$1 wanted=$2 status=0 out=/dev/null err=/dev/null
    shift 2
    "$pqx" "$@" > "$work/out" 2> "$work/err" || status=$?
    [ ! -e "tests/pqx/$name.out" ] || out=tests/pqx/$name.out
    [ ! -e "tests/pqx/$name.err" ] || err=tests/pqx/$name.err
    compare "$name" "$wanted" "$status" "$out" "$err"
}

# Command lines.
try help 0 --help < /dev/null
try short-help 0 -h < /dev/null
try help-command 0 help < /dev/null
try run-help 0 run --help < /dev/null
try help-run 0 help run < /dev/null
try points-help 0 points --help < /dev/null
try alone-help 0 alone --help < /dev/null
try check-help 0 check --help < /dev/null
try help-check 0 help check < /dev/null
try broker-help 0 broker --help < /dev/null
try help-broker 0 help broker < /dev/null
try broker-without-task 2 broker < /dev/null
try version 0 --version < /dev/null
try short-version 0 -V < /dev/null
try no-command 2 < /dev/null
try unknown-command 2 walk < /dev/null
try unknown-option 2 --walk < /dev/null
try unknown-option-of-run 2 run --walk < /dev/null
try stray-word 2 run crash.script < /dev/null
try empty-word 2 '' < /dev/null
printf 'queue durable 1 1\nstep 0 0\n' > "$work/bad"
try misspelt-command 2 runs < "$work/bad"

# What a command of pqx prints of a script, beside what is stored: NAME SCRIPT STORED COMMAND.. A bad line is told on
# standard error alone, and ends with status 1.
plays() {
    local name=$1 script=$2 stored=$3 status=0
    shift 3
    "$pqx" "$@" < "$script" > "$work/out" 2> "$work/err" || status=$?
    case $(head -c 5 "$stored") in
        'line ')
            sed 's/^/pqx: /' "$stored" > "$work/wanted"
            compare "$name" 1 "$status" /dev/null "$work/wanted"
            ;;
        *) compare "$name" 0 "$status" "$stored" /dev/null ;;
    esac
}

# Scripts: those of the scenarios.
for script in "$data"/*.script; do
    name=$(basename "$script" .script)
    plays "script $name" "$script" "$data/$name.out" run
done
for script in examples/*.script; do
    judge "$script" "$(difference "$script" "$data/$(basename "$script")" "$script")"
done

# A second crash after each step of a recovery: before the one that keeps the head, from there on, and after the last.
for step in $(seq 29); do
    case $step in
        29) came_to=ready ;;
        2?) came_to=kept ;;
        *) came_to=recovering ;;
    esac
    sed "s/STEP/$step/" tests/pqx/crash-again.script > "$work/in"
    plays "a second crash after step $step" "$work/in" "tests/pqx/crash-again-$came_to.txt" run
done

# Scripts with a bad line: a name, the number of that line, and the script.
while read -r name number script; do
    printf '%b' "$script" > "$work/in"
    printf 'line %s: 28 BadLine\n' "$number" > "$work/stored"
    plays "bad $name" "$work/in" "$work/stored" run
done < "$data/bad-lines.txt"
yes '' | head -n 1001 > "$work/in"
printf 'line 1001: 28 BadLine\n' > "$work/stored"
plays 'bad 1001 lines' "$work/in" "$work/stored" run
yes '' | head -n 1000 > "$work/in"
: > "$work/stored"
plays '1000 lines' "$work/in" "$work/stored" run

# A crash of a whole broker at each point of a script, and which words are kept then.
for script in tests/broker/points/*.in; do
    name=$(basename "$script" .in)
    plays "broker points $name" "$script" "tests/broker/points/$name.out" broker points
done
for words in none all drawn; do
    status=0
    "$pqx" broker points --evict "$words" --draw 7 < tests/broker/points/evicted.in > "$work/out" 2> "$work/err" ||
        status=$?
    compare "broker points, $words kept" 0 "$status" "tests/broker/points/evicted-$words.txt" /dev/null
done

# Scripts of whole brokers, and lines that no such script has after its first one.
for script in tests/broker/*.in; do
    name=$(basename "$script" .in)
    plays "broker $name" "$script" "tests/broker/$name.out" broker run
done
for script in examples/*.broker; do
    judge "$script" "$(difference "$script" "tests/broker/$(basename "$script" .broker).in" "$script")"
done
printf 'pqx: line 2: 28 BadLine\n' > "$work/wanted"
while IFS= read -r line; do
    status=0
    printf 'broker 1 1\n%s\n' "$line" > "$work/in"
    "$pqx" broker run < "$work/in" > "$work/out" 2> "$work/err" || status=$?
    compare "broker line $line" 1 "$status" /dev/null "$work/wanted"
done < tests/broker/bad-lines.txt
printf 'pqx: line 1: 28 BadLine\n' > "$work/wanted"
for line in 'broker 0 1' 'broker 17 1' 'broker 1 0' 'broker 1 4097' 'broker 1' 'broker 1 1 1' 'broker 01 1' 'Broker 1 1'; do
    status=0
    printf '%s\n' "$line" > "$work/in"
    "$pqx" broker run < "$work/in" > "$work/out" 2> "$work/err" || status=$?
    compare "broker line $line" 1 "$status" /dev/null "$work/wanted"
done
for task in run points; do
    status=0
    "$pqx" broker "$task" < tests > "$work/out" 2> "$work/err" || status=$?
    printf 'pqx: 26 ReadFailed\n' > "$work/wanted"
    compare "broker $task of a folder" 1 "$status" /dev/null "$work/wanted"
    status=0
    "$pqx" broker "$task" < examples/creation.broker > /dev/full 2> "$work/err" || status=$?
    printf 'pqx: 27 WriteFailed\n' > "$work/wanted"
    : > "$work/out"
    compare "broker $task to a full output" 1 "$status" /dev/null "$work/wanted"
done

# Reports on those scripts that have one stored: a crash at each point, with no word kept, with every one and with drawn
# ones, and each stopped call alone. Standard error is no terminal here, so nothing is written there.
reports() {
    local ending=$1 report name status
    shift
    for report in "$data"/*."$ending"; do
        name=$(basename "$report" ".$ending")
        status=0
        "$pqx" "$@" < "$data/$name.script" > "$work/out" 2> "$work/err" || status=$?
        compare "$* $name" 0 "$status" "$report" /dev/null
    done
}
reports points points
reports points points --evict none
reports points points --draw 0
reports points points --draw=18446744073709551615 --evict=none
reports points-all points --evict all
reports points-drawn points --evict drawn
reports points-drawn points --draw 1 --evict drawn
reports points-drawn-7 points --evict drawn --draw 7
reports alone alone

# Many points, in several batches: a line for each, none bad, and the same again.
{
    printf 'queue log 4 64\n'
    for ((number = 1; number <= 30; number++)); do
        for client in 0 1 2 3; do
            printf 'enq %d %d %08x\nend %d\n' "$client" "$number" "$((client + 4 * number))" "$client"
        done
    done
} > "$work/in"
"$pqx" points --evict drawn < "$work/in" > "$work/wanted"
tail -n 1 "$work/wanted" > "$work/last"
awk 'END { printf "points %d bad 0\n", NR - 1 }' "$work/wanted" > "$work/count"
judge 'the last of many points' "$(difference 'standard output' "$work/count" "$work/last")"
[ "$(wc -l < "$work/wanted")" -gt 2049 ] || judge 'many points' 'there are 2,048 points or fewer'
status=0
"$pqx" points --evict drawn < "$work/in" > "$work/out" 2> "$work/err" || status=$?
compare 'many points again' 0 "$status" "$work/wanted" /dev/null

# Parts of a report: their lines, put together, are those of the whole, and the last line of each counts its own.
: > "$work/together"
: > "$work/counts"
for ((from = 0; from < $(wc -l < "$work/wanted"); from += 700)); do
    status=0
    "$pqx" points --evict drawn --from "$from" --count 700 < "$work/in" > "$work/part" 2> "$work/err" || status=$?
    sed '$d' "$work/part" > "$work/out"
    compare "part from $from" 0 "$status" <(sed -n "$((from + 1)),$((from + 700))p" "$work/wanted" | grep '^point ') /dev/null
    cat "$work/out" >> "$work/together"
    tail -n 1 "$work/part" >> "$work/counts"
    awk 'END { printf "points %d bad 0\n", NR }' "$work/out" >> "$work/count-wanted"
done
judge 'parts put together' "$(difference 'all parts' <(sed '$d' "$work/wanted") "$work/together")"
judge 'what the parts count' "$(difference 'last lines' "$work/count-wanted" "$work/counts")"
part() {
    local status=0 name=$1
    shift
    "$pqx" points "$@" < "$data/points-log-enqueue.script" > "$work/out" 2> "$work/err" || status=$?
    compare "points $*" 0 "$status" "tests/pqx/$name.out" /dev/null
}
part part-of-one --from 37 --count 1
part part-to-the-end --from 37
part part-to-the-end --from 37 --count 18446744073709551615
part part-of-none --count 0
part part-of-none --from 39
part part-of-none --from 18446744073709551615 --count 18446744073709551615
reports points points --from 0 --count 200
reports points points --from +0

# The page of a report: the same on standard output, and the stored page in its file. A file that cannot be written.
status=0
"$pqx" points --page "$work/page" < "$data/points-log-enqueue.script" > "$work/out" 2> "$work/err" || status=$?
compare 'points --page' 0 "$status" "$data/points-log-enqueue.points" /dev/null
judge 'the page' "$(difference 'the page' tests/pages/points-log-enqueue.html "$work/page")"
status=0
drawn=(--from 28 --count 9 --evict drawn --draw 7)
"$pqx" points "${drawn[@]}" < "$data/points-log-enqueue.script" > "$work/wanted"
"$pqx" points "${drawn[@]}" --page "$work/page" < "$data/points-log-enqueue.script" > "$work/out" 2> "$work/err" ||
    status=$?
compare 'points --page of a part' 0 "$status" "$work/wanted" /dev/null
judge 'the page of a part' "$(difference 'the page' tests/pages/points-part-drawn.html "$work/page")"
status=0
printf 'pqx: 27 WriteFailed\n' > "$work/wanted"
"$pqx" points --page "$work/none/page" < "$data/points-log-enqueue.script" > "$work/out" 2> "$work/err" || status=$?
compare 'a page without a folder' 1 "$status" "$data/points-log-enqueue.points" "$work/wanted"

# The page of a run: the same on standard output, and the stored page in its file. A file that cannot be written.
for script in examples/crash.script examples/kept.script tests/pages/*.script; do
    status=0
    name=$(basename "$script" .script)
    "$pqx" run < "$script" > "$work/wanted"
    "$pqx" run --page "$work/page" < "$script" > "$work/out" 2> "$work/err" || status=$?
    compare "run --page $name" 0 "$status" "$work/wanted" /dev/null
    judge "the page of $name" "$(difference 'the page' "tests/pages/$name.html" "$work/page")"
done
status=0
"$pqx" run < examples/kept.script > "$work/transcript"
printf 'pqx: 27 WriteFailed\n' > "$work/wanted"
"$pqx" run --page "$work/none/page" < examples/kept.script > "$work/out" 2> "$work/err" || status=$?
compare 'a run without a folder for its page' 1 "$status" "$work/transcript" "$work/wanted"
status=0
"$pqx" run --page "$work/page" < "$work/bad" > "$work/out" 2> "$work/err" || status=$?
printf 'pqx: line 2: 28 BadLine\n' > "$work/wanted"
compare 'a page of a bad script' 1 "$status" /dev/null "$work/wanted"

# What the reports say of bad scripts, options and devices.
: > "$work/nothing"
for command in points alone; do
    printf 'queue durable 1 1\nstop\n' > "$work/in"
    status=0
    "$pqx" $command < "$work/in" > "$work/out" 2> "$work/err" || status=$?
    printf 'pqx: line 2: 28 BadLine\n' > "$work/wanted"
    compare "$command of a bad line" 1 "$status" /dev/null "$work/wanted"
    status=0
    printf '# no queue\n' | "$pqx" $command > "$work/out" 2> "$work/err" || status=$?
    compare "$command of no queue" 0 "$status" /dev/null /dev/null
    status=0
    "$pqx" $command < tests > "$work/out" 2> "$work/err" || status=$?
    printf 'pqx: 26 ReadFailed\n' > "$work/wanted"
    compare "$command of a folder" 1 "$status" /dev/null "$work/wanted"
    status=0
    "$pqx" $command < examples/crash.script > /dev/full 2> "$work/err" || status=$?
    printf 'pqx: 27 WriteFailed\n' > "$work/wanted"
    : > "$work/out"
    compare "$command to a full output" 1 "$status" /dev/null "$work/wanted"
done
# Options of points, each given a value that it has not, none, or two; and words that no command takes.
bad_option() {
    bad_line "$pqx" "$@" < examples/crash.script
}
for value in some '' ALL; do
    bad_option "the option '--evict' takes none, all or drawn" 'pqx <COMMAND>' points "--evict=$value"
done
for value in x '' -1 1.0 18446744073709551616; do
    bad_option "the option '--draw' takes a whole number from 0 to 18446744073709551615" 'pqx <COMMAND>' \
        points "--draw=$value"
done
for option in from count; do
    for value in x '' -1 1.0 18446744073709551616; do
        bad_option "the option '--$option' takes a whole number from 0 to 18446744073709551615" 'pqx <COMMAND>' \
            points "--$option=$value"
    done
done
for option in 'evict <WORDS>' 'draw <N>' 'from <P>' 'count <N>' 'page <FILE>'; do
    bad_option "a value is required for '--$option' but none was supplied" '' points "--${option%% *}"
    bad_option "the argument '--$option' cannot be used multiple times" 'pqx points [OPTIONS]' \
        points "--${option%% *}" 1 "--${option%% *}" 1
done
bad_option 'broker takes run or points' 'pqx <COMMAND>' broker walk
bad_option 'broker takes run or points' 'pqx <COMMAND>' broker ''
bad_option "unexpected argument 'run' found" 'pqx broker [OPTIONS] <TASK>' broker run run
bad_option "broker run takes neither '--evict' nor '--draw'" 'pqx <COMMAND>' broker run --evict all
bad_option "broker run takes neither '--evict' nor '--draw'" 'pqx <COMMAND>' broker run --draw 1
bad_option "the option '--evict' takes none, all or drawn" 'pqx <COMMAND>' broker points --evict some
bad_option "unexpected argument '-1' found" 'pqx points [OPTIONS]' points --draw -1
bad_option "unexpected argument 'crash.script' found" 'pqx points [OPTIONS]' points crash.script
bad_option "unexpected argument 'crash.script' found" 'pqx alone' alone crash.script
bad_option "unexpected argument '--evict' found" 'pqx alone' alone --evict all
bad_option "unexpected argument '--from' found" 'pqx alone' alone --from 1
bad_option "unexpected argument '--evict' found" 'pqx run [OPTIONS]' run --evict all
bad_option "a value is required for '--page <FILE>' but none was supplied" '' run --page
bad_option "the argument '--page <FILE>' cannot be used multiple times" 'pqx run [OPTIONS]' run --page 1 --page 1
bad_option "unexpected argument '--evict' found" 'pqx check [OPTIONS]' check --evict all
bad_option "unexpected argument 'crash.script' found" 'pqx check [OPTIONS]' check crash.script
bad_option "unexpected value 'yes' for '--order' found; no more were expected" 'pqx check --order' check --order=yes
bad_option "the argument '--order' cannot be used multiple times" 'pqx check [OPTIONS]' check --order --order
bad_option "a value is required for '--page <FILE>' but none was supplied" '' check --page

# Scripts that are no text: a byte 0, and bytes that no character has.
printf 'queue durable 1 1\n\0\n' > "$work/in"
try script-with-a-zero 1 run < "$work/in"
printf 'queue durable 1 1\n# \377\376\n\377\n' > "$work/in"
try script-of-no-characters 1 run < "$work/in"
printf 'queue durable 1 1\n# \377\376\n' > "$work/in"
try comment-of-no-characters 0 run < "$work/in"

# Inputs that cannot be read, and one that comes by and by.
try input-is-a-folder 1 run < tests
try input-is-closed 1 run <&-
try input-is-a-pipe 0 run < <(printf 'queue durable '; sleep 0.1; printf '1 1\ncontent\n')

# Outputs that cannot be written: a full one, and a closed one. On standard error both say the same.
failing_output() {
    printf 'pqx: 27 WriteFailed\n' > "$work/wanted"
    : > "$work/out"
    compare "$1" 1 "$2" /dev/null "$work/wanted"
}
status=0
"$pqx" run < examples/crash.script > /dev/full 2> "$work/err" || status=$?
failing_output output-is-full "$status"
status=0
"$pqx" run < examples/crash.script >&- 2> "$work/err" || status=$?
failing_output output-is-closed "$status"
status=0
"$pqx" --help < /dev/null > /dev/full 2> "$work/err" || status=$?
failing_output help-to-a-full-output "$status"
status=0
"$pqx" --version < /dev/null >&- 2> "$work/err" || status=$?
failing_output version-to-a-closed-output "$status"

count
