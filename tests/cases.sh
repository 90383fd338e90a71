# Cases of a built program: a script of tests/ reads this file, tries each of its cases, and ends with `count`.
work=$(mktemp -d)
trap 'rm -r "$work"' EXIT
passed=0
failed=0
left=0

# Says how a case of this name went: what differs from what was wanted of it, or nothing.
judge() {
    if [ -z "$2" ]; then
        passed=$((passed + 1))
        return
    fi
    failed=$((failed + 1))
    printf 'FAILED: %s\n%s\n' "$1" "$2"
}

# Where a file and what was wanted of it differ. `diff` ends with 1 where they do.
difference() {
    diff --text --unified=1 --label "wanted: $1" --label "found: $1" "$2" "$3" || true
}

# Compares what a command wrote ($work/out, $work/err) and its status with what is wanted of the case:
# NAME STATUS-WANTED STATUS OUT-WANTED ERR-WANTED, the last two being files.
compare() {
    local said=
    [ "$3" -eq "$2" ] || said="status $3, and not $2"$'\n'
    said+=$(difference 'standard output' "$4" "$work/out")
    said+=$(difference 'standard error' "$5" "$work/err")
    judge "$1" "$said"
}

# A command line with a fault: what is wrong, and how the command is used, where that is said, on standard error alone,
# with status 2: PROGRAM TEXT USAGE WORD.. with the input given.
bad_line() {
    local program=$1 text=$2 usage=$3 status=0
    shift 3
    {
        printf 'error: %s\n' "$text"
        [ -z "$usage" ] || printf '\nUsage: %s\n' "$usage"
        printf "\nFor more information, try '--help'.\n"
    } > "$work/wanted"
    "$program" "$@" > "$work/out" 2> "$work/err" || status=$?
    compare "options: $*" 2 "$status" /dev/null "$work/wanted"
}

# Says what is left out here, and why.
leave_out() {
    printf 'left out: %s\n' "$1"
    left=$((left + 1))
}

# How many passed, failed and were left out, as the last line, and that as the status.
count() {
    printf '%d passed, %d failed' "$passed" "$failed"
    [ "$left" -eq 0 ] || printf ', %d left out' "$left"
    printf '\n'
    [ "$failed" -eq 0 ]
}

# Ends the script, as one failure, where one of these programs is not there: PROGRAM..
need() {
    local program
    for program in "$@"; do
        [ ! -x "$program" ] || continue
        printf 'there is no %s: run ./test build or ./test all, and name it\n' "$program"
        failed=$((failed + 1))
        count || exit 1
    done
}

# A copy of the plain programs with one place changed: FILE OLD NEW. The old text stands there once.
change() {
    rm -rf "$work/plain"
    cp -r bench/plain "$work/plain"
    [ "$(grep -cF -- "$2" "bench/plain/$1")" -eq 1 ] || judge "$1" "$2 does not stand in one line"
    python3 - "$work/plain/$1" "$2" "$3" << 'PYTHON'
import sys
path, old, new = sys.argv[1:]
text = open(path).read()
open(path, "w").write(text.replace(old, new))
PYTHON
}

# A copy of the plain programs ($work/right, as $work/plain) that is wrong in one place is seen by a part, which says
# then what differs: FILE OLD NEW PART. The old text stands there once.
wrong() {
    rm -r "$work/plain"
    cp -r "$work/right" "$work/plain"
    python3 - "$work/plain/$1" "$2" "$3" << 'PYTHON' || judge "$1" "$2 does not stand there once"
import sys
path, old, new = sys.argv[1:]
text = open(path).read()
open(path, "w").write(text.replace(old, new))
sys.exit(text.count(old) != 1)
PYTHON
    if [ -n "$($4)" ]; then judge "$2" ''; else judge "'$3' in $1" "$4 does not see it"; fi
}
