#!/usr/bin/env bash
# What the built pqd does, compared to the letter: what it writes on standard output, on standard error and to its
# image, and its status, on good and bad command lines, requests, files, inputs and outputs, and what it replies over
# connections. It takes the program that the last `rt ci`, or `rt run` in crates/pqd, left, or the one that PQD names.
set -eu
cd "$(dirname "$0")/.."
. tests/cases.sh
pqd=${PQD:-$PWD/crates/pqd/out/pqd}
need "$pqd"

# Runs pqd with these words on the standard input that it was given. What is wanted stands in tests/pqd/NAME.out and
# NAME.err, where there is no such file nothing: NAME STATUS WORD..
try() {
    local name=$1 wanted=$2 status=0 out=/dev/null err=/dev/null
    shift 2
    "$pqd" "$@" > "$work/out" 2> "$work/err" || status=$?
    [ ! -e "tests/pqd/$name.out" ] || out=tests/pqd/$name.out
    [ ! -e "tests/pqd/$name.err" ] || err=tests/pqd/$name.err
    compare "$name" "$wanted" "$status" "$out" "$err"
}

# A fault that is said on standard error alone, with nothing on standard output: NAME TEXT WORD.. with the input given.
fault() {
    local name=$1 status=0
    printf 'pqd: %s\n' "$2" > "$work/wanted"
    shift 2
    "$pqd" "$@" > "$work/out" 2> "$work/err" || status=$?
    compare "$name" 1 "$status" /dev/null "$work/wanted"
}

# Says that a file has so many bytes: NAME FILE BYTES.
has_bytes() {
    local found said=
    found=$(wc -c < "$2")
    [ "$found" -eq "$3" ] || said="$found bytes, and not $3"
    judge "$1" "$said"
}

# Command lines. Those with a fault write to standard error alone, and end with status 2.
try help 0 --help < /dev/null
try short-help 0 -h < /dev/null
try pipe-help 0 pipe --help < /dev/null
try serve-help 0 serve --help < /dev/null
try stats-help 0 stats --help < /dev/null
try version 0 --version < /dev/null
try short-version 0 -V < /dev/null
# A fault, and how the command is used: TEXT USAGE WORD..
bad_option() {
    bad_line "$pqd" "$@" < /dev/null
}
bad_option "'pqd' requires a subcommand but one was not provided"$'\n  [subcommands: pipe, serve, stats]' 'pqd <COMMAND>'
bad_option "unrecognized subcommand ''" 'pqd <COMMAND>' ''
bad_option "unrecognized subcommand 'walk'" 'pqd <COMMAND>' walk
bad_option "unrecognized subcommand 'tube'" 'pqd <COMMAND>' tube
bad_option "unrecognized subcommand 'help'" 'pqd <COMMAND>' help
bad_option "unexpected argument '--clients' found"$'\n\n  tip: '"'pipe --clients' exists" 'pqd <COMMAND>' \
    --clients 1 pipe
bad_option "unexpected argument 'word' found" 'pqd pipe [OPTIONS]' pipe word
bad_option "unexpected argument '4' found" 'pqd serve [OPTIONS]' serve 4
bad_option "unexpected argument '--walk' found" 'pqd pipe [OPTIONS]' pipe --walk
bad_option "unexpected argument '4' found" 'pqd pipe [OPTIONS]' pipe --renew 4
bad_option "the argument '--renew' cannot be used multiple times" 'pqd pipe [OPTIONS]' pipe --renew --renew
bad_option "unexpected value 'yes' for '--renew' found; no more were expected" 'pqd serve --renew' serve --renew=yes
bad_option "unexpected argument '--port' found" 'pqd pipe [OPTIONS]' pipe --port 0
bad_option "unexpected argument '--workers' found" 'pqd pipe [OPTIONS]' pipe --workers 1
bad_option "unexpected argument '--announce' found" 'pqd pipe [OPTIONS]' pipe --announce host:1
bad_option "unexpected argument '--clint' found"$'\n\n  tip: '"a similar argument exists: '--clients'" \
    'pqd pipe --clients <T>' pipe --clint 4
for option in 'clients <T>' 'records <K>' 'image <FILE>' 'journal <FILE>' 'sync <WHEN>' 'listen <ADDRESS>' 'port <P>' \
    'metrics <PORT>' 'workers <N>' 'connections <C>' 'idle <SECONDS>' 'secret <FILE>' 'patience <S>' 'announce <HOST:PORT>'; do
    bad_option "a value is required for '--$option' but none was supplied" '' serve "--${option%% *}"
    bad_option "the argument '--$option' cannot be used multiple times" 'pqd serve [OPTIONS]' \
        serve "--${option%% *}" 1 "--${option%% *}" 1
done
# Numbers that are none of an option's: OPTION LEAST MOST VALUE..
misfits() {
    local option=$1 least=$2 most=$3 value
    shift 3
    for value; do
        bad_option "the option '--$option' takes a whole number from $least to $most" 'pqd <COMMAND>' \
            serve "--$option=$value"
    done
}
misfits clients 1 16 0 17 -1 1.0 four '' 18446744073709551617
misfits records 1 4096 0 4097 5000 -1 x ''
misfits port 0 65535 65536 -1 4294967296 ''
misfits metrics 0 65535 65536 -1 x ''
misfits workers 1 16 0 17 ''
misfits connections 1 65536 0 65537 -1 ''
misfits idle 1 86400 0 86401 1.5 ''
bad_option "the option '--clients' takes a whole number from 1 to 16" 'pqd <COMMAND>' pipe --clients 0
for port in 0 65536 -1 x ''; do
    bad_option "the option '--port' takes a whole number from 1 to 65535" 'pqd <COMMAND>' stats "--port=$port"
done
bad_option "unexpected argument '--clients' found" 'pqd stats [OPTIONS]' stats --clients 1
bad_option "unexpected argument '--watch' found" 'pqd serve [OPTIONS]' serve --watch
bad_option "the option '--records' takes a whole number from 1 to 4096" 'pqd <COMMAND>' pipe --records 5000
for when in '' secondly Always 1; do
    bad_option "the option '--sync' takes always, second or never" 'pqd <COMMAND>' serve --journal tests "--sync=$when"
done
for address in '' localhost 127.0.0 127.0.0.256 ::g 1; do
    bad_option "the option '--listen' takes an IPv4 or an IPv6 address" 'pqd <COMMAND>' serve "--listen=$address"
done
bad_option "the option '--sync' goes with '--journal'" 'pqd <COMMAND>' pipe --sync always
# Options of a journal in etcd, which go with one alone.
log=etcd://127.0.0.1:1/log
for patience in 0 86401 -1 x ''; do
    bad_option "the option '--patience' takes a whole number from 1 to 86400" 'pqd <COMMAND>' \
        serve --journal "$log" "--patience=$patience"
done
for when in second never; do
    bad_option "the option '--sync' takes always alone for a journal in etcd" 'pqd <COMMAND>' \
        serve --journal "$log" --sync "$when"
done
for word in --standby --take-over --patience=1 --announce=host:1; do
    for command in pipe 'serve --journal tests'; do
        # (a pipe is found nowhere)
        [ "$command $word" != 'pipe --announce=host:1' ] || continue
        # shellcheck disable=SC2086
        bad_option "the options '--standby', '--take-over', '--patience' and '--announce' go with '--journal etcd://..'" \
            'pqd <COMMAND>' $command "$word"
    done
done
# One comes before the image is looked at, which comes before listening.
bad_option "the option '--clients' takes a whole number from 1 to 16" 'pqd <COMMAND>' pipe --image tests --clients 0

# Requests, and their replies. The clients are numbered from 0.
try story 0 pipe --clients 2 --records 2 < tests/pqd/story.in
try defaults 0 pipe < tests/pqd/defaults.in
try lines 0 pipe --clients=1 --records=1 < tests/pqd/lines.in
try spellings 0 pipe --clients 1 --records 4 < tests/pqd/spellings.in
try numbers 0 pipe --clients 4 --records 4 < tests/pqd/numbers.in
try values 0 pipe --clients 1 --records 16 < tests/pqd/values.in
try items 0 pipe --clients 1 --records 64 < tests/pqd/items.in
try texts 0 pipe --clients 1 --records 16 < tests/pqd/texts.in
try no-text 0 pipe --clients 1 --records 1 < tests/pqd/no-text.in
try names 0 pipe --clients 1 --records 1 < tests/pqd/names.in
try no-request 0 pipe --clients 1 --records 1 < tests/pqd/no-request.in
try refusals 0 pipe --clients 2 --records 1 < tests/pqd/refusals.in
try down 0 pipe --clients 1 --records 1 < tests/pqd/down.in
try full 0 pipe --clients 1 --records 1 < tests/pqd/full.in
try longest-list 0 pipe --clients 1 --records 1 < tests/pqd/longest-list.in
try told-log 0 pipe --clients 2 --records 4 < tests/pqd/told-log.in
try no-input 0 pipe < /dev/null
try a-stop 0 pipe < <(printf '{"op":"stop"}\n{"op":"list"}\n')
try greatest 0 pipe --clients 16 --records 4096 < /dev/null
try a-part-at-a-time 0 pipe < <(printf '{"op":'; sleep 0.1; printf '"list"}\n{"op":"list"'; sleep 0.1; printf '}')

# What is replied to an input, both as `printf` writes them: INPUT REPLIES
says() {
    local status=0
    # shellcheck disable=SC2059
    printf "$2" > "$work/wanted"
    # shellcheck disable=SC2059
    printf "$1" | "$pqd" pipe --clients 1 --records 1 > "$work/out" 2> "$work/err" || status=$?
    compare "the input $1" 0 "$status" "$work/wanted" /dev/null
}
# Where inputs end.
says '\n' '{"error":24,"name":"BadJson"}\n'
says '{"op":"list"}' '{"queues":[]}\n'
says '{"op":"list"}\n' '{"queues":[]}\n'
says '{"op":"list"}\n ' '{"queues":[]}\n{"error":24,"name":"BadJson"}\n'
says '{"op":"list"}\n{"op":"list"' '{"queues":[]}\n{"error":24,"name":"BadJson"}\n'
says '{"op":"stop"}' '{"reply":"stopping"}\n'
says '{"op":"stop","x":1}\n{"op":"stop"}\n{"op":"list"}\n\n{"op":"stop"}\n' \
    '{"error":25,"name":"BadRequest"}\n{"reply":"stopping"}\n'
for last in '\377\376' '\0' '{"op":"list"}\0' '{"op":"told","client":0,"queue":"\303"}' \
    '{"op":"told","client":0,"queue":"\\ud800"}'; do
    says "$last" '{"error":24,"name":"BadJson"}\n'
done

# Long lines, whose blanks do not count for JSON: one of 512 bytes is read, longer ones are not.
try long-lines 0 pipe --clients 1 --records 1 < <(printf '%512s\n%513s\n%20000s\n%512s' '{"op":"list"}'{,,,})

# Arrays within arrays, from 1 to 256 deep, of which JSON has 127; and such as never end.
awk 'BEGIN {
    for (depth = 1; depth <= 256; depth++) {
        inner = "[" inner "]"
        print inner
    }
    for (depth = 1; depth <= 10000; depth++) {
        open = open "["
        if (depth == 512 || depth == 10000) print open
    }
}' > "$work/in"
awk 'BEGIN {
    for (depth = 1; depth <= 127; depth++) print "{\"error\":25,\"name\":\"BadRequest\"}"
    for (depth = 128; depth <= 257; depth++) print "{\"error\":24,\"name\":\"BadJson\"}"
    print "{\"error\":23,\"name\":\"TooLong\"}"
}' > "$work/wanted"
status=0
"$pqd" pipe --clients 1 --records 1 < "$work/in" > "$work/out" 2> "$work/err" || status=$?
compare 'arrays within arrays' 0 "$status" "$work/wanted" /dev/null

# More replies than the server holds at once; and an output that is full within them.
yes '?' | head -n 4000 > "$work/in"
yes '{"error":24,"name":"BadJson"}' | head -n 4000 > "$work/wanted"
status=0
"$pqd" pipe --clients 1 --records 1 < "$work/in" > "$work/out" 2> "$work/err" || status=$?
compare 'four thousand replies' 0 "$status" "$work/wanted" /dev/null
head -c 50000 "$work/wanted" > "$work/beginning"
printf 'pqd: 27 WriteFailed\n' > "$work/fault"
status=0
python3 -B tests/devices.py full 50000 "$pqd" pipe --clients 1 --records 1 \
    < "$work/in" > "$work/out" 2> "$work/err" || status=$?
compare 'an output that is full after 50,000 bytes' 1 "$status" "$work/beginning" "$work/fault"

# Says that a file has just these bytes: NAME FILE WANTED.
is_file() {
    judge "$1" "$(cmp "$2" "$3" 2>&1 || true)"
}

# Images: a new one, one that goes on, and the same again. Their clients and records are the file's. A new one of one
# client with one record has 210 words, of which the first two are these numbers and the others 0.
image=$work/image
{ printf 'PQW2\322\0\0\0\0\0\0\0\1\0\0\0\0\0\0\0\1\0\0\0\0\0\0\0'; head -c 1664 /dev/zero; } > "$work/new"
try no-input 0 pipe --clients 1 --records 1 --image "$image" < /dev/null
has_bytes 'a new image' "$image" 1692
is_file 'a new image' "$image" "$work/new"
try no-input 0 pipe --clients 2 --records 9 --image "$image" < /dev/null
is_file 'a new image, again' "$image" "$work/new"
rm "$image"
# Every option of pipe in another order: 34 and 8 times 211 words.
try no-input 0 pipe --image "$work/a b" --records=9 --clients 2 < /dev/null
has_bytes 'an image with every option' "$work/a b" 13788
# With no image to renew.
try no-input 0 pipe --renew < /dev/null
try no-input 0 pipe --renew --image "$image" < /dev/null
has_bytes 'an image of the defaults: 34 and 8 times 11,281 words' "$image" 722268
rm "$image"
try first-run 0 pipe --clients 1 --records 2 --image "$image" < tests/pqd/first-run.in
has_bytes 'the image of the first run' "$image" 2396
cp "$image" "$work/first"
try second-run 0 pipe --image "$image" < tests/pqd/second-run.in
has_bytes 'the image of the second run' "$image" 2396
cp "$image" "$work/second"
try third-run 0 pipe --image "$image" < tests/pqd/third-run.in
has_bytes 'the image of the third run' "$image" 2396
[ ! -e "$image.new" ] || judge 'the image' 'a file is left beside it'

# An image of numbers becomes one of items, at the second run: the same as where items had been there from the first on.
python3 -B tests/images.py numbers "$image"
has_bytes 'an image of numbers' "$image" 1820
cp "$image" "$work/numbers"
try second-run 0 pipe --image "$image" < tests/pqd/second-run.in
is_file 'an image of numbers after a run' "$image" "$work/second"

# What clients are told of a durable queue, also by the broker that begins on its image.
rm "$image"
try told-durable 0 pipe --clients 2 --records 4 --image "$image" < tests/pqd/told-durable.in
try told-durable-later 0 pipe --image "$image" < tests/pqd/told-durable-later.in

# A broker that is down when it is stopped leaves the image of one that is ready.
cp "$work/first" "$work/ready"
try no-input 0 pipe --image "$work/ready" < /dev/null
cp "$work/first" "$image"
try stopped-while-down 0 pipe --image "$image" < tests/pqd/stopped-while-down.in
is_file 'stopped while it is down' "$image" "$work/ready"
try second-run 0 pipe --image "$image" < tests/pqd/second-run.in

# A call that was announced and took no effect: of each kind of queue, one empty take whose answer was not kept. The
# words are those of two clients with one record: block 0 is at 34, block 1 at 69.
rm "$image"
try announced 0 pipe --clients 2 --records 1 --image "$image" < tests/pqd/announced.in
try announced-taken 0 pipe --image "$image" < tests/pqd/announced-told.in
python3 -B tests/images.py word "$image" 59 0
python3 -B tests/images.py word "$image" 102 0
try announced-open 0 pipe --image "$image" < tests/pqd/announced-told.in

# Files that are no image, whatever the input asks. They stay as they are.
no_image() {
    cp "$image" "$work/kept"
    fault "$1" "$2" pipe --image "$image" < tests/pqd/third-run.in
    cmp -s "$image" "$work/kept" || judge "$1" 'the file has changed'
}
head -c 2395 "$work/first" > "$image"
no_image 'an image that is cut off' '4 Truncated'
: > "$image"
no_image 'an empty file' '4 Truncated'
{ cat "$work/first"; printf x; } > "$image"
no_image 'an image with a byte more' '5 TrailingBytes'
{ printf Q; tail -c +2 "$work/first"; } > "$image"
no_image 'another first byte' '2 BadMagic'
printf 'PQW2\0\0\0\0\0\0\0\0' > "$image"
no_image 'an image of no words' '3 BadCount'
# The first word is the number of clients.
{ head -c 12 "$work/first"; printf '\021'; tail -c +14 "$work/first"; } > "$image"
no_image 'an image that breaks a rule' '29 Damaged'

# Every 68th beginning of an image is cut off, and every 52nd of one of numbers: that each is refused, a clause says.
for ((bytes = 0; bytes < 2396; bytes += 68)); do
    head -c "$bytes" "$work/first" > "$image"
    no_image "an image of which $bytes bytes are there" '4 Truncated'
done
for ((bytes = 0; bytes < 1820; bytes += 52)); do
    head -c "$bytes" "$work/numbers" > "$image"
    no_image "an image of numbers of which $bytes bytes are there" '4 Truncated'
done
{ cat "$work/numbers"; printf x; } > "$image"
no_image 'an image of numbers with a byte more' '5 TrailingBytes'
# Of a queue whose client has begun one call: a head that is at no claimed node.
cp "$work/numbers" "$image"
python3 -B tests/images.py word "$image" 34 2
no_image 'an image of numbers that breaks a rule' '29 Damaged'
# The head of its own that an image has: magic and count. A memory has at most 8,388,608 words.
other_head() {
    cp "$work/first" "$image"
    python3 -B tests/images.py bytes "$image" "$1" "$2"
    no_image "$2 from byte $1 on" "$3"
}
other_head 0 51 '2 BadMagic'
other_head 3 31 '29 Damaged'
other_head 3 33 '2 BadMagic'
other_head 4 0000 '3 BadCount'
other_head 4 010080 '3 BadCount'
other_head 4 000080 '4 Truncated'
other_head 4 29 '5 TrailingBytes'
# A word that breaks a rule alone, which bench/plain names: clients and records; the name, kind and gate of slot 0; a
# word of a block without a queue; more records than the client has; a head that is at no claimed node.
damaged() {
    cp "$work/first" "$image"
    python3 -B tests/images.py word "$image" "$1" "$2"
    printf '%s\n' "$3" > "$work/wanted"
    python3 -B tests/images.py rule "$image" > "$work/rule"
    judge "the rule that $2 in word $1 breaks" "$(difference 'the rule' "$work/wanted" "$work/rule")"
    no_image "$2 in word $1" '29 Damaged'
}
damaged 0 0 Image
damaged 0 2 Image
damaged 0 17 Image
damaged 1 1 Image
damaged 1 4097 Image
damaged 2 0 Directory
damaged 3 97 Directory
damaged 4 3 Directory
damaged 5 2 Directory
damaged 67 1 Directory
damaged 37 3 Records
damaged 34 2 Ends

# Files that cannot be read, and such as cannot be written.
fault 'an image that is a folder' '26 ReadFailed' pipe --image tests < /dev/null
fault 'an image within a file' '26 ReadFailed' pipe --image README.md/image < /dev/null
status=0
printf 'pqd: 27 WriteFailed\n' > "$work/wanted"
"$pqd" pipe --image "$work/none/image" < tests/pqd/defaults.in > "$work/out" 2> "$work/err" || status=$?
compare 'an image in no folder' 1 "$status" tests/pqd/defaults.out "$work/wanted"

# Inputs that cannot be read, and outputs that cannot be written. Then no image is written.
rm "$image"
fault 'input is a folder' '26 ReadFailed' pipe --image "$image" < tests
fault 'input is closed' '26 ReadFailed' pipe --image "$image" <&-
failing_output() {
    printf 'pqd: 27 WriteFailed\n' > "$work/wanted"
    : > "$work/out"
    compare "$1" 1 "$2" /dev/null "$work/wanted"
    [ ! -e "$image" ] || judge "$1" 'an image was written'
}
status=0
"$pqd" pipe --image "$image" < tests/pqd/defaults.in > /dev/full 2> "$work/err" || status=$?
failing_output 'output is full' "$status"
status=0
"$pqd" pipe --image "$image" < tests/pqd/defaults.in >&- 2> "$work/err" || status=$?
failing_output 'output is closed' "$status"
status=0
"$pqd" serve --port 0 --image "$image" < /dev/null > /dev/full 2> "$work/err" || status=$?
failing_output 'a port to a full output' "$status"
status=0
"$pqd" --help < /dev/null > /dev/full 2> "$work/err" || status=$?
failing_output 'help to a full output' "$status"

# Begins to serve with these options, and waits for the line that says at which port: at that which is asked for, or at
# one that the system chooses; and at which address.
asked=0
address=127.0.0.1
serve() {
    : > "$work/said"
    "$pqd" serve --port="$asked" "$@" < /dev/null > "$work/said" 2> "$work/warned" &
    server=$!
    port=
    for ((turn = 0; turn < 1000 && ${#port} == 0; turn++)); do
        sleep 0.01
        port=$(sed -n "s/^listening ${address//./\\.}:\([1-9][0-9]*\)\$/\1/p" "$work/said")
    done
    [ -n "$port" ] || judge "serve $*" 'it does not say where it listens'
    printf 'listening %s:%s\n' "$address" "$port" > "$work/listening"
}

# Waits for the end of serving, for ten seconds at most; it is to be of this status, with this file of standard error:
# NAME STATUS ERR-WANTED.
ends() {
    local status=0
    for ((turn = 0; turn < 1000; turn++)); do
        kill -0 "$server" 2> /dev/null || break
        sleep 0.01
    done
    if kill "$server" 2> /dev/null; then
        judge "$1" 'it did not end in time'
    fi
    wait "$server" || status=$?
    cp "$work/said" "$work/out"
    cp "$work/warned" "$work/err"
    compare "$1" "$2" "$status" "$work/listening" "$3"
}

# Sends the file of requests over the connection of a descriptor, and compares the replies: NAME DESCRIPTOR.
replies_to() {
    cat "tests/pqd/$1.in" >&"$2"
    timeout 10 head -n "$(wc -l < "tests/pqd/$1.out")" <&"$2" > "$work/replies" || true
    judge "$1 over a connection" "$(difference 'the replies' "tests/pqd/$1.out" "$work/replies")"
}

# The same over a connection of its own: NAME.
over_connection() {
    exec 3<> "/dev/tcp/127.0.0.1/$port"
    replies_to "$1" 3
    exec 3>&-
}

# Sends a stop over a connection of its own, and compares its reply.
stop() {
    exec 3<> "/dev/tcp/127.0.0.1/$port"
    printf '{"op":"stop"}\n' >&3
    timeout 10 cat <&3 > "$work/replies" || true
    exec 3>&-
    printf '{"reply":"stopping"}\n' > "$work/wanted"
    judge 'a stop over a connection' "$(difference 'the reply' "$work/wanted" "$work/replies")"
}

# One connection after another; the image is written at the stop.
serve --clients 1 --records 2 --image "$image"
over_connection first-run
[ ! -e "$image" ] || judge 'serve' 'an image was written before the stop'
stop
ends 'serve to a stop' 0 /dev/null
cmp -s "$image" "$work/first" || judge 'serve' 'the image is another one than that of a pipe'
serve --image "$image" --workers 1
over_connection second-run
stop
ends 'serve again' 0 /dev/null
try third-run 0 pipe --image "$image" < tests/pqd/third-run.in

# Every option of serve, in another order, and at the port that was just left.
asked=$port
rm "$image"
serve --workers 16 --image "$image" --records=2 --clients 1
[ "$port" = "$asked" ] || judge 'serve at a port' "it listens at $port"
over_connection first-run
stop
ends 'serve with every option' 0 /dev/null
is_file 'serve with every option' "$image" "$work/first"
asked=0

# A connection over which nothing comes holds up no other one, but the end: the image is written once it has ended.
rm "$image"
serve --clients 1 --records 2 --image "$image" --workers 2
exec 4<> "/dev/tcp/127.0.0.1/$port"
over_connection first-run
stop
sleep 0.2
kill -0 "$server" 2> /dev/null || judge 'an open connection' 'it ended before'
[ ! -e "$image" ] || judge 'an open connection' 'the image was written before'
exec 4>&-
ends 'serve with an open connection' 0 /dev/null
cmp -s "$image" "$work/first" || judge 'an open connection' 'the image is another one than that of a pipe'

# A connection that is open when another one accepts a stop is served until it ends, and the image has what it did.
rm "$image"
serve --clients 1 --records 2 --image "$image" --workers 2
exec 4<> "/dev/tcp/127.0.0.1/$port"
over_connection first-run
stop
replies_to after-a-stop 4
exec 4>&-
ends 'serve after a stop' 0 /dev/null
try third-run 0 pipe --image "$image" < tests/pqd/third-run.in

# Ten times as many calls as their client has records. Then it fills the queue, until a renewal would leave it none: it
# is told NoRoom, and another client's take makes room for its put.
rm "$image"
serve --clients 2 --records 4 --workers 1 --renew --image "$image"
over_connection beyond-records
stop
ends 'serve renewals' 0 /dev/null
try beyond-records-told 0 pipe --image "$image" < tests/pqd/beyond-records-told.in

# A connection that ends in the middle of a line, or without reading its replies, ends alone. What is said of it on
# standard error is one line for each, if any.
serve --clients 1 --records 2 --workers 1
for ((turn = 0; turn < 20; turn++)); do
    exec 4<> "/dev/tcp/127.0.0.1/$port"
    printf '{"op":"li' >&4
    exec 4>&-
    exec 4<> "/dev/tcp/127.0.0.1/$port"
    { yes '{"op":"list"}' || true; } 2> /dev/null | head -n 100 >&4
    exec 4>&-
done
over_connection first-run
stop
ends 'serve broken connections' 0 "$work/warned"
[ "$(wc -l < "$work/warned")" -le 40 ] || judge 'broken connections' 'more than a line for each on standard error'

# Another address is asked for. Where others than this machine reach it, the start says so.
address=127.0.0.2
serve --listen 127.0.0.2
exec 3<> "/dev/tcp/127.0.0.2/$port"
printf '{"op":"stop"}\n' >&3
exec 3>&-
ends 'serve another loopback' 0 /dev/null
address=0.0.0.0
serve --listen 0.0.0.0
printf 'pqd: whoever reaches 0.0.0.0:%s is served: there is no password\n' "$port" > "$work/everyone"
stop
ends 'serve every address' 0 "$work/everyone"
address=127.0.0.1

# A port that is in use, and an image that cannot be begun on, which is found first.
serve
fault 'a port in use' 'listen failed' serve --port "$port" < /dev/null
fault 'a folder before a port in use' '26 ReadFailed' serve --port "$port" --image tests < /dev/null
stop
ends 'serve without an image' 0 /dev/null

# Clients at connections of their own, beside one that crashes the broker and recovers it: nothing is lost or doubled,
# and an order explains what each client saw, over a stop and the image. What was seen is its first line.
status=0
RECORDS=256 PQD=$pqd bench/load.sh 0.05 > "$work/out" 2> "$work/err" || status=$?
head -n 1 "$work/out"
printf 'nothing is lost, nothing doubled, and an order explains each queue'"'"'s history\n' > "$work/wanted"
head -n 1 "$work/out" | grep -qE 'crashes [1-9].*done [1-9].*got [1-9].*restarts on an image [1-9]' \
    || judge 'clients beside crashes' 'some kind was not seen'
tail -n +2 "$work/out" > "$work/last"
mv "$work/last" "$work/out"
compare 'clients beside crashes' 0 "$status" "$work/wanted" /dev/null

# An image that cannot be written at the stop.
serve --image "$work/none/image"
stop
printf 'pqd: 27 WriteFailed\n' > "$work/wanted"
ends 'serve to no folder' 1 "$work/wanted"

count
