#!/usr/bin/env bash
# What pqd and pqx do where a device fails under them: inputs and outputs that are closed, full or gone, connections
# that are reset, files and folders that cannot be written, and a stop of the process while it writes its image. What
# tests/pqd.sh and tests/pqx.sh have of this is not here again. It takes the programs that the last `rt ci`, or `rt run`
# in their folders, left, or those that PQD and PQX name.
set -eu
cd "$(dirname "$0")/.."
. tests/cases.sh
pqd=${PQD:-$PWD/crates/pqd/out/pqd}
pqx=${PQX:-$PWD/crates/pqx/out/pqx}
need "$pqd" "$pqx"
faults=0
# Where a case's own output is closed or full, what is wrong is still said.
exec 6>&1
script=examples/crash.script
requests=tests/pqd/first-run.in

# Runs a command, whose input and output the case gives, and compares its status and what it says on standard error:
# NAME STATUS TEXT COMMAND.. . What it wrote to $work/out, where the case says so, is compared with $work/replies.
fails() {
    local name=$1 wanted=$2 status=0
    if [ -z "$3" ]; then : > "$work/wanted"; else printf '%s\n' "$3" > "$work/wanted"; fi
    shift 3
    faults=$((faults + 1))
    timeout 60 "$@" 2> "$work/err" || status=$?
    compare "$name" "$wanted" "$status" "$work/replies" "$work/wanted" >&6
}
: > "$work/replies"
: > "$work/out"

# Outputs: closed, full, a pipe whose reader is gone, a connection that was reset.
exec 5> >(:)
wait $!
for words in 'pqd --help' 'pqd pipe' 'pqd serve --port 0' 'pqx --help' 'pqx run' 'pqx points' 'pqx alone'; do
    read -ra command <<< "$words"
    case ${command[0]} in
        pqd) command[0]=$pqd input=$requests ;;
        pqx) command[0]=$pqx input=$script ;;
    esac
    said="${words%% *}: 27 WriteFailed"
    fails "$words, output closed" 1 "$said" "${command[@]}" < "$input" >&-
    fails "$words, output full" 1 "$said" "${command[@]}" < "$input" > /dev/full
    fails "$words, output without a reader" 1 "$said" "${command[@]}" < "$input" >&5
    fails "$words, output to a connection that was reset" 1 "$said" \
        python3 -B tests/devices.py reset "${command[@]}" < "$input"
done
exec 5>&-
fails 'the page to a full device' 1 'pqx: 27 WriteFailed' "$pqx" points --page /dev/full < "$script" > /dev/null
# Where nothing can be said of a fault, the status says that there is one.
for words in 'pqx run' 'pqx walk' 'pqd pipe --image tests' 'pqd pipe --clients 0'; do
    read -ra command <<< "$words"
    case ${command[0]} in
        pqd) command[0]=$pqd ;;
        pqx) command[0]=$pqx ;;
    esac
    : > "$work/err"
    for device in full closed; do
        faults=$((faults + 1)) status=0
        if [ $device = full ]; then
            "${command[@]}" < README.md > "$work/out" 2> /dev/full || status=$?
        else
            "${command[@]}" < README.md > "$work/out" 2>&- || status=$?
        fi
        compare "$words, standard error $device" 1 "$status" /dev/null /dev/null
    done
done

# Inputs: closed, or failing behind what was sent. The line that was not finished is not served.
fails 'pqx points, input closed' 1 'pqx: 26 ReadFailed' "$pqx" points <&-
fails 'pqx alone, input closed' 1 'pqx: 26 ReadFailed' "$pqx" alone <&-
for command in run points alone; do
    fails "pqx $command, input fails" 1 'pqx: 26 ReadFailed' \
        python3 -B tests/devices.py cut "$pqx" "$command" < "$script"
done
printf '{"queues":[]}\n{"reply":"created","slot":0}\n' > "$work/replies"
printf '{"op":"list"}\n{"op":"create","queue":"a","kind":"log"}\n{"op":"list"}' \
    | fails 'pqd pipe, input fails' 1 'pqd: 26 ReadFailed' \
        python3 -B tests/devices.py cut "$pqd" pipe --image "$work/none" > "$work/out"
: > "$work/replies"
: > "$work/out"
[ ! -e "$work/none" ] || judge 'pqd pipe, input fails' 'an image was written'

# Images that cannot be read or written. Root may write anywhere, so that a folder without a right is tried as nobody.
image=$work/image
"$pqd" pipe --clients 1 --records 2 --image "$image" < "$requests" > /dev/null
cp "$image" "$work/first"
stays() {
    cmp -s "$1" "$work/first" || judge "$2" 'the image is another one'
}
nobody=()
if [ "$(id -u)" -eq 0 ]; then
    nobody=(python3 -B tests/devices.py nobody)
    chmod 711 "$work"
    cp "$pqd" "$work/pqd"
    chmod 755 "$work/pqd"
    pqd_of_nobody=$work/pqd
else
    pqd_of_nobody=$pqd
fi
mkdir "$work/folder"
cp "$work/first" "$work/folder/image"
chmod 644 "$work/folder/image"
chmod 555 "$work/folder"
fails 'a folder that may not be written' 1 'pqd: 27 WriteFailed' \
    "${nobody[@]}" "$pqd_of_nobody" pipe --image "$work/folder/image" < /dev/null
stays "$work/folder/image" 'a folder that may not be written'
fails 'a new image in such a folder' 1 'pqd: 27 WriteFailed' \
    "${nobody[@]}" "$pqd_of_nobody" pipe --image "$work/folder/other" < /dev/null
chmod 0 "$work/folder/image"
fails 'an image that may not be read' 1 'pqd: 26 ReadFailed' \
    "${nobody[@]}" "$pqd_of_nobody" pipe --image "$work/folder/image" < /dev/null
chmod 0 "$work/folder"
fails 'a folder that may not be entered' 1 'pqd: 26 ReadFailed' \
    "${nobody[@]}" "$pqd_of_nobody" pipe --image "$work/folder/image" < /dev/null
chmod 755 "$work/folder"
fails 'an image in /proc' 1 'pqd: 27 WriteFailed' "$pqd" pipe --image /proc/image < /dev/null
mkdir "$image.new"
fails 'a folder where the new image is to be' 1 'pqd: 27 WriteFailed' "$pqd" pipe --image "$image" < /dev/null
stays "$image" 'a folder where the new image is to be'
rmdir "$image.new"
ln -s /dev/full "$image.new"
fails 'a full device where the new image is to be' 1 'pqd: 27 WriteFailed' "$pqd" pipe --image "$image" < /dev/null
stays "$image" 'a full device where the new image is to be'
rm "$image.new"
ln -s image "$work/loop"
ln -sf loop "$work/loop"
fails 'an image whose name goes round' 1 'pqd: 26 ReadFailed' "$pqd" pipe --image "$work/loop" < /dev/null
fails 'an image that never ends' 1 'pqd: 2 BadMagic' "$pqd" pipe --image /dev/zero < /dev/null
long=$work/$(printf '%0253d' 0)
fails 'an image whose name has no room for more' 1 'pqd: 27 WriteFailed' "$pqd" pipe --image "$long" < /dev/null
fails 'an image whose name is too long' 1 'pqd: 26 ReadFailed' "$pqd" pipe --image "${long}000" < /dev/null

# A device that is full at some byte of the image: the old image stays, and the broker begins on it again.
for ((bytes = 40; bytes < 2396; bytes += 340)); do
    fails "a device that is full at byte $bytes" 1 'pqd: 27 WriteFailed' \
        python3 -B tests/devices.py full "$bytes" "$pqd" pipe --image "$image" < /dev/null
    stays "$image" "a device that is full at byte $bytes"
done

# What the broker says that begins on the image which a stop left, and its image then.
begins_again() {
    local status=0
    "$pqd" pipe --image "$1" < tests/pqd/second-run.in > "$work/out" 2> "$work/err" || status=$?
    compare "$2, and it begins again" 0 "$status" tests/pqd/second-run.out /dev/null
    cmp -s "$1" "$work/second" || judge "$2, and it begins again" 'the image is another one'
    : > "$work/out"
    [ ! -e "$1.new" ] || judge "$2, and it begins again" 'a file is left beside it'
}
cp "$work/first" "$work/second"
"$pqd" pipe --image "$work/second" < tests/pqd/second-run.in > /dev/null

# A stop of the process while it writes: at some byte of the image, and at each call of the system by which it writes.
# Before the renaming the old image is left whole, after it the new one, which here differs from it.
for ((bytes = 0; bytes < 2396; bytes += 480)); do
    cp "$work/first" "$image"
    fails "killed at byte $bytes" 153 '' \
        python3 -B tests/devices.py limited "$bytes" "$pqd" pipe --image "$image" < tests/pqd/second-run.in > /dev/null
    stays "$image" "killed at byte $bytes"
    [ "$(wc -c < "$image.new")" -eq "$bytes" ] || judge "killed at byte $bytes" 'it was not killed there'
    begins_again "$image" "killed at byte $bytes"
done
"$(dirname "$(rt doc)")/toolchain/bin/clang" --target=x86_64-unknown-linux-gnu -shared -fPIC -nostdlib -fuse-ld=lld \
    -o "$work/killing.so" tests/killing.c
killed() {
    local status=0
    # The shell would say that it was killed.
    {
        KILLED=$1 LD_PRELOAD=$work/killing.so timeout 20 "$pqd" "${@:2}" > "$work/said" 2> "$work/err" || status=$?
    } 2> /dev/null
    faults=$((faults + 1))
    [ "$status" -eq 137 ] || judge "killed at $1" "status $status: it was not killed there"
}
for moment in open after-open fsync after-fsync rename; do
    cp "$work/first" "$image"
    killed "$moment" pipe --image "$image" < tests/pqd/second-run.in
    stays "$image" "killed at $moment"
    begins_again "$image" "killed at $moment"
done
cp "$work/first" "$image"
killed after-rename pipe --image "$image" < tests/pqd/second-run.in
cmp -s "$image" "$work/second" || judge 'killed after the renaming' 'the image is not the new one'
rm "$image"
killed rename pipe --clients 1 --records 2 --image "$image" < "$requests"
[ ! -e "$image" ] || judge 'killed at the renaming of a first image' 'there is an image'
cmp -s "$image.new" "$work/first" || judge 'killed at the renaming of a first image' 'the new one is not whole'

# Connections that are cut off, beside one that is not. Of each that was cut off there is one line of warning at most.
: > "$work/listening"
"$pqd" serve --port 0 --workers 3 --image "$image" < /dev/null > "$work/listening" 2> "$work/warned" &
server=$!
until grep -q '^listening ' "$work/listening"; do
    kill -0 "$server"
    sleep 0.1
done
status=0
timeout 60 python3 -B tests/devices.py connections "$(sed 's/.*://' "$work/listening")" \
    > "$work/out" 2> "$work/err" || status=$?
compare 'connections that are cut off' 0 "$status" tests/devices.out /dev/null
status=0
timeout 20 tail --pid="$server" -f /dev/null || kill -9 "$server"
wait "$server" || status=$?
warning='\[WARN  server::connections\] a connection ended: \(26 ReadFailed\|27 WriteFailed\)'
grep -vx "$warning" "$work/warned" > "$work/err" || true
: > "$work/out"
compare 'serve with connections that are cut off' 0 "$status" /dev/null /dev/null

# A server that may open a few connections alone.
cat > "$work/replies" << 'END'
one waits: True
it is served once another one has ended: True
the others go on: True
stop: {"reply":"stopping"}
few warnings: True
END
fails 'serve without descriptors' 0 '' python3 -B tests/devices.py descriptors "$pqd" > "$work/out"

# As many connections as it takes, by its four workers: those that are silent cost none of them.
cat > "$work/replies" << 'END'
silent ones keep nobody: True
half a line keeps nobody, and is served once it is whole: True
one too many: {"error":31,"name":"Full"}
one has ended, and another one is served: True
stop: {"reply":"stopping"}
END
fails 'serve a crowd' 0 '' python3 -B tests/devices.py crowd "$pqd" > "$work/out"
cat > "$work/replies" << 'END'
the first one is answered: True
['{"queues":[]}', '{"reply":"stopping"}', '']
END
fails 'serve without an input and a standard error' 0 '' python3 -B tests/devices.py strays "$pqd" > "$work/out"
: > "$work/replies"
: > "$work/out"

cuts=$(sed -n 's/^cut off: //p' tests/devices.out)
[ "$(wc -l < "$work/warned")" -le "$cuts" ] || judge 'connections that are cut off' 'more than a warning for each'
faults=$((faults + cuts))

printf 'device faults: %d\n' "$faults"
count
