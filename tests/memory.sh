#!/usr/bin/env bash
# What no clause says of refused memory: programs with each allocation refused in turn (tests/refusing.c).
#
# - crates/test_refusals is a session that threads share. It ends as where none is refused, but for the lines that name
#   the calls which were refused, and each of these is made again.
# - pqx and pqd do what they would, or say that there is no memory.
# - Scripts with a line `again` behind each line make what was refused once more.
# - Requests that pqd refused are sent again.
#
# It takes the programs that the last `rt ci`, or `rt run` in their folders, left, or those that REFUSALS, PQX and PQD
# name.
set -eu
cd "$(dirname "$0")/.."
. tests/cases.sh
refusals=${REFUSALS:-$PWD/crates/test_refusals/out/test_refusals}
pqx=${PQX:-$PWD/crates/pqx/out/pqx}
pqd=${PQD:-$PWD/crates/pqd/out/pqd}
need "$pqx" "$pqd"
"$(dirname "$(rt doc)")/toolchain/bin/clang" --target=x86_64-unknown-linux-gnu -shared -fPIC -nostdlib -fuse-ld=lld \
    -o "$work/refusing.so" tests/refusing.c

# What test_refusals told, without the lines that say what was refused: FILE
told() {
    grep -vE '^(again|unfinished|busy)' "$1"
}

# It is run with none refused, and then with each of its allocations refused, which it says how many there are. What
# differs is printed.
refuse_each() {
    local number status
    for ((number = 1; number <= $(cat "$work/count"); number++)); do
        status=0
        REFUSED=$number LD_PRELOAD=$work/refusing.so "$refusals" > "$work/said" 2> "$work/err" || status=$?
        if [ "$status" -ne 0 ] || [ -s "$work/err" ] || ! told "$work/said" | cmp -s - "$work/wanted"; then
            printf 'with allocation %d refused it ends with status %d\n' "$number" "$status"
            told "$work/said" | diff --text "$work/wanted" - | head -n 4
            head -n 2 "$work/err"
        fi
        grep -E '^(again|changed|unfinished|busy)' "$work/said" >> "$work/seen" || true
    done
}
# A session that threads share.
play_refusals() {
    local line
    REFUSED=0 LD_PRELOAD=$work/refusing.so "$refusals" > "$work/wanted" 2> "$work/count"
    cp "$work/wanted" "$work/out"
    : > "$work/err"
    compare 'none refused: test_refusals' 0 0 crates/test_refusals/stdout /dev/null
    : > "$work/seen"
    judge 'each allocation refused: test_refusals' "$(refuse_each)"
    printf 'test_refusals: %d allocations refused\n' "$(cat "$work/count")"

    # Each call that can be refused was seen to be, and no other one.
    sort -u "$work/seen" > "$work/names"
    while read -r line; do
        judge "$line" "$(grep -qx "$line" "$work/names" || echo 'was never said')"
    done < tests/memory/again
    judge 'what was said' "$(grep -vxf tests/memory/again "$work/names" || true)"
}
if [ -z "${UNPROVED-}" ]; then
    need "$refusals"
    play_refusals
else
    leave_out 'crates/test_refusals, which is built with its proof alone'
fi

# Whether what it wrote is a beginning of that.
is_beginning() {
    head -c "$(wc -c < "$work/out")" "$work/wanted" | cmp -s - "$work/out"
}

# A program with each of its allocations refused in turn: it writes all that it would, or a beginning of it and ends with
# status 1, having said just that there is no memory; both are seen: NAME INPUT PROGRAM WORD..
refuse() {
    local name=$1 input=$2 number status refused=0 said=
    shift 2
    REFUSED=0 LD_PRELOAD=$work/refusing.so "$@" < "$input" > "$work/wanted" 2> "$work/count"
    printf 'pqx: 6 NoMemory\n' > "$work/fault"
    for ((number = 1; number <= $(cat "$work/count"); number++)); do
        status=0
        REFUSED=$number LD_PRELOAD=$work/refusing.so "$@" < "$input" > "$work/out" 2> "$work/err" || status=$?
        if [ "$status" -eq 1 ] && is_beginning && cmp -s "$work/err" "$work/fault"; then
            refused=$((refused + 1))
        elif [ "$status" -ne 0 ] || [ -s "$work/err" ] || ! cmp -s "$work/out" "$work/wanted"; then
            said+="with allocation $number refused it ends with status $status: $(head -n 2 "$work/err")"$'\n'
        fi
    done
    [ "$refused" -gt 0 ] || said+='it never says that there is no memory'
    judge "each allocation refused: $name" "$(head -n 20 <<< "$said")"
    printf '%s: %d of %d allocations refused are said\n' "$name" "$refused" "$(cat "$work/count")"
}

# A script with `again` behind each line, with each allocation refused in turn: it prints what it does where none is
# refused, but that an act was refused for want of memory, which is made again; or it says that there is no memory.
# Lines that begin with these words were made again: NAME WORDS SCRIPT WORD..
again() {
    local name=$1 words=$2 status=0 said= seen
    shift 2
    python3 -B tests/again.py "$pqx" "$work/refusing.so" "$name" "$@" > "$work/out" || status=$?
    cat "$work/out"
    seen=$(sed -n 's/^.* not missed: //p' "$work/out")
    [ "$status" -eq 0 ] || said+="status $status"$'\n'
    [ "$seen" = "$words" ] || said+="made again were: $seen"$'\n'
    judge "again: $name" "$said"
}

refuse 'pqx run' examples/kept.script "$pqx" run
refuse 'pqx points' tests/scenarios/points-log-enqueue.script "$pqx" points
refuse 'pqx alone' tests/scenarios/points-log-enqueue.script "$pqx" alone
refuse 'pqx run --page' examples/kept.script "$pqx" run --page "$work/page"
refuse 'pqx points --page' tests/scenarios/points-log-enqueue.script "$pqx" points --page "$work/page"
refuse 'pqx broker run' tests/broker/image.in "$pqx" broker run
again durable 'call content crash order ready refused return' tests/memory/durable.script run
again log 'call content crash order ready refused return' tests/memory/log.script run
words='booted call content crash created creating evict found image order queues ready recovering refused renewed'
again broker "$words return rotated set told" tests/memory/broker.script broker run
again numbers 'call content crash created order ready recovering refused reply return' tests/memory/numbers.script broker run
again plain 'content created reply' tests/memory/plain.script broker run
printf '%s\n' 'broker 1 1' 'create a log 1' image > "$work/in"
refuse 'pqx broker points' "$work/in" "$pqx" broker points

# Requests that are refused memory are sent again, and calls that are left unfinished are finished: which ones. A pipe
# has its session for itself, and the desk of a server shares it.
status=0
timeout 900 python3 -B tests/requests_refused.py "$pqd" "$work/refusing.so" tests/memory pipe:created pipe:told \
    pipe:down pipe:stopped serve:desk > "$work/out" || status=$?
cat "$work/out"
judge 'each allocation refused: pqd' "$([ "$status" -eq 0 ] || echo "status $status")"
while read -r line; do
    judge "$line" "$(grep -qxF "$line" "$work/out" || echo 'others were')"
done < tests/memory/requests

# A copy of that script in which a comparison is turned says what it then finds: OLD NEW SAID
wrong_requests() {
    sed "s/$1/$2/" tests/requests_refused.py > "$work/wrong.py"
    timeout 900 python3 -B "$work/wrong.py" "$pqd" "$work/refusing.so" tests/memory pipe:created > "$work/out" || true
    judge "requests with '$2'" "$(grep -q "$3" "$work/out" || echo "it does not say: $3")"
}
wrong_requests 'self.look() != seen' 'self.look() == seen' 'is refused memory, and changes something'
wrong_requests 'image_at(path) != self.image' 'image_at(path) == self.image' 'without memory, and changes the image'
wrong_requests 'image_at(path) != self.left' 'image_at(path) == self.left' 'it leaves another image'
wrong_requests 'found not in' 'found in' 'is answered'

# A server whose queues are renewed while it serves: PROGRAM
serving_refused() {
    python3 -B tests/serving_refused.py "$1" "$work/refusing.so" 2>&1 || true
}
judge 'each allocation refused: pqd serve --renew' "$(serving_refused "$pqd")"

count
