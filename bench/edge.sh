#!/usr/bin/env bash
# Runs a built program where it meets the system, of which contracts know only how often a read or a write failed: each status from 0 to 7,
# an input that comes byte by byte, an output that takes a byte at a time, reads and writes that fail, behind which nothing may be read or
# written, outputs that are full, closed or read by nobody, and little memory. Each run is compared with what it must end with and write;
# nothing goes to standard error.
#
# The status is 0 where all runs were as they must be, and else 1. bench/edge.c is compiled by `cc` for it. Without a name of the program it is
# built, by `rt run` in crates/vemiktag.
# usage: bench/edge.sh [VEMIKTAG]
set -u
cd "$(dirname "$0")/.." || exit 1
room=$(mktemp -d)
trap 'rm -rf "$room"' EXIT
if [ $# -eq 0 ]; then
    (cd crates/vemiktag && rt run -- log <stdin >"$room/built" 2>&1) || { cat "$room/built"; exit 1; }
fi
program=$(realpath "${1:-crates/vemiktag/out/vemiktag}")
cc -shared -fPIC -O1 -o "$room/edge.so" bench/edge.c || exit 1
runs=0
wrong=0

# Runs the program, within the time, by what stands in `by`, with these words and what is given on standard input: the status goes to
# `status`, what it writes to the files `out` and `err`.
by=()
run() {
    timeout 120 env "${by[@]}" "$program" "$@" >"$room/out" 2>"$room/err"
    status=$?
}

# Tells a case: the status, what is wrong with it if something is, and its name.
tell() {
    runs=$((runs + 1))
    [ -s "$room/err" ] && fault="$fault; something on standard error"
    if [ -z "$fault" ]; then
        echo "status $status: $1"
    else
        wrong=$((wrong + 1))
        echo "status $status: $1 DIFFERS${fault}"
    fi
}

# A run that must have ended with this status, and written the bytes of this file.
is() {
    fault=
    [ "$status" -eq "$2" ] || fault="; it must be $2"
    cmp -s "$3" "$room/out" || fault="$fault; other bytes were written"
    tell "$1"
}

# A run that must have ended with this status, and written the first bytes of this file.
begins() {
    fault=
    [ "$status" -eq "$2" ] || fault="; it must be $2"
    cmp -s -n "$(stat -c %s "$room/out")" "$3" "$room/out" || fault="$fault; no beginning of the report was written"
    tell "$1"
}

session=examples/readme_history.session
report=examples/readme_history.report
: >"$room/nothing"
printf 'refused 0\nskipped 0\nother 0\n' >"$room/empty"
printf 'no event\n' >"$room/refused"
printf 'line 1 refused 1 Malformed NotJson\nrefused 1\nskipped 0\nother 0\n' >"$room/refused.report"
printf 'line 1 refused 16 LineTooLong\nrefused 1\nskipped 0\nother 0\n' >"$room/long.report"

# ---- each status

run log <crates/vemiktag/stdin
is "the stored run" 0 crates/vemiktag/stdout
run session <"$session"
is "a session of $(wc -l <"$session") lines" 0 "$report"
run session <"$room/refused"
is "a line that is refused" 1 "$room/refused.report"
for words in '' 'sessions' 'log log' 'play 3 20' 'play 17 20 1' 'gen 03 20 1'; do
    # shellcheck disable=SC2086
    run $words <"$session"
    is "no command: '$words'" 2 "$room/nothing"
done
run session <.
is "an input that is a folder" 3 "$room/nothing"
run session <&-
is "an input that is closed" 3 "$room/nothing"
(head -c 16777216 /dev/zero) | { run session; is "an input of 16,777,216 bytes" 1 "$room/long.report"; declare -p runs wrong >"$room/told"; }
. "$room/told"
(head -c 16777217 /dev/zero) | { run session; is "an input with one byte more" 6 "$room/nothing"; declare -p runs wrong >"$room/told"; }
. "$room/told"
run $'\xff' <"$session"
is "a word that is no UTF-8" 7 "$room/nothing"

# ---- outputs that take nothing

for words in session 'gen 3 20 1' 'play 3 20 1'; do
    : >"$room/out"
    # shellcheck disable=SC2086
    timeout 120 "$program" $words <"$session" 2>"$room/err" >/dev/full
    status=$?
    is "$words to an output that is full" 4 "$room/nothing"
    # shellcheck disable=SC2086
    timeout 120 "$program" $words <"$session" 2>"$room/err" >&-
    status=$?
    is "$words to an output that is closed" 4 "$room/nothing"
    # shellcheck disable=SC2086
    { timeout 120 "$program" $words <"$session" 2>"$room/err"; echo $? >"$room/status"; } | true
    status=$(<"$room/status")
    is "$words to an output that nobody reads" 4 "$room/nothing"
done

# ---- little at a time

run gen 3 200 1 </dev/null
cp "$room/out" "$room/gen"
for count in 1 7 4096; do
    by=(LD_PRELOAD="$room/edge.so" EDGE_READ=$count)
    run session <"$session"
    is "a session read by $count bytes" 0 "$report"
    by=(LD_PRELOAD="$room/edge.so" EDGE_WRITE=$count)
    run session <"$session"
    is "a session written by $count bytes" 0 "$report"
    run gen 3 200 1 </dev/null
    is "a generated session written by $count bytes" 0 "$room/gen"
done
by=()
run session < <(while IFS= read -r line; do printf '%s\n' "$line"; done <"$session")
is "a session through a pipe, line by line" 0 "$report"
{ timeout 120 "$program" session <"$session" 2>"$room/err"; echo $? >"$room/status"; } | dd bs=3 2>/dev/null >"$room/out"
status=$(<"$room/status")
is "a session into a pipe that is read by 3 bytes" 0 "$report"

# ---- reads and writes that fail

given=$(wc -c <"$session")
for call in 1 2 100 1000 $((given / 2)) "$given" $((given + 1)); do
    by=(LD_PRELOAD="$room/edge.so" EDGE_READ=1 EDGE_READ_FAILS="$call")
    run session <"$session"
    begins "read $call, of one byte, fails" 3 "$report"
done
written=$(wc -c <"$report")
for call in 1 2 10 100 $((written / 2)) "$written"; do
    by=(LD_PRELOAD="$room/edge.so" EDGE_WRITE=1 EDGE_WRITE_FAILS="$call")
    run session <"$session"
    head -c $((call - 1)) "$report" >"$room/first"
    is "write $call, of one byte, fails" 4 "$room/first"
done
by=(LD_PRELOAD="$room/edge.so" EDGE_READ=1 EDGE_READ_FAILS=100 EDGE_WRITE_FAILS=1)
run session <"$room/refused"
is "a write fails before a read" 4 "$room/nothing"

# ---- little memory

by=()
run play 3 20000 1 </dev/null
cp "$room/out" "$room/play"
for kilobytes in 12000 16000; do
    (ulimit -v "$kilobytes"; exec "$program" play 3 20000 1) </dev/null >"$room/out" 2>"$room/err"
    status=$?
    begins "a play in $kilobytes KB" 5 "$room/play"
done

echo "$runs runs, $wrong of them otherwise than they must be"
[ "$wrong" -eq 0 ]
