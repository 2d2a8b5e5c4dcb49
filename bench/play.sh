#!/usr/bin/env bash
# Times `vemiktag play` beside another program that prints the same lines, and `vemiktag log` and `session`. It builds nothing.
#
#     bench/play.sh VEMIKTAG BASELINE [LOG..]
#
# For each count of clients and of edits both programs play the session by turns, RUNS times, and are told: the medians of their
# processor seconds, the greatest memory, how many times as much as the baseline that is, and whether the lines are equal. For 20,000 edits
# callgrind counts the instructions of each once (a dash where there is no valgrind, or it can't run the program). Then each LOG is given to
# `vemiktag log`, or to `vemiktag session` where its name ends with .session; the seconds for 100,000 lines show whether it is linear.
# A BASELINE of - is none: the program is then told alone.
#
# By the environment: EDITS (2000 20000 200000 1000000), CLIENTS (3 16), SEED (1), RUNS (5).
set -u
if [ $# -lt 2 ]; then
    sed -n '2,/^set/{/^#/s/^# \{0,1\}//p}' "$0"
    exit 2
fi
vemiktag=$1
baseline=$2
shift 2
edits=${EDITS:-2000 20000 200000 1000000}
clients=${CLIENTS:-3 16}
seed=${SEED:-1}
runs=${RUNS:-5}
counted=20000
TIMEFORMAT='%3U %3S'
room=$(mktemp -d)
trap 'rm -rf "$room"' EXIT

# Runs a program with words and an input, and adds its processor seconds to a file; its lines stay in another.
measure() {
    local name=$1 input=$2
    shift 2
    { time "$@" <"$input" >"$room/$name.lines" 2>/dev/null; } 2>>"$room/$name.runs"
}

# The median of the processor seconds of a program's runs.
seconds() {
    awk '{ print $1 + $2 }' "$room/$1.runs" | sort -n | awk '
        { seconds[NR] = $1 }
        END { printf "%.3f\n", NR % 2 ? seconds[(NR + 1) / 2] : (seconds[NR / 2] + seconds[NR / 2 + 1]) / 2 }'
}

# The greatest memory of a run of a program with words and an input, in MiB.
memory() {
    local input=$1
    shift
    /usr/bin/time -q -f %M "$@" <"$input" 2>&1 >/dev/null | awk 'END { printf "%.1f\n", $1 / 1024 }'
}

# How many times as much the first is as the second.
ratio() {
    awk -v a="$1" -v b="$2" 'BEGIN { if (a == "-" || b == "-" || b == 0) print "-"; else printf "%.1f", a / b }'
}

# The instructions of a program in millions.
instructions() {
    local found
    found=$(valgrind --tool=callgrind --callgrind-out-file="$room/callgrind" "$@" 2>&1 >/dev/null </dev/null | awk '/Collected/ { printf "%.0f", $4 / 1000000 }')
    echo "${found:--}"
}

# One count of clients and of edits: a row of the table.
play() {
    local words=(play "$1" "$2" "$seed") lines=- own other=(- -) work=(- -)
    rm -f "$room"/*.runs
    for ((run = 0; run < runs; run++)); do
        measure own /dev/null "$vemiktag" "${words[@]}"
        [ "$baseline" = - ] || measure other /dev/null "$baseline" "${words[@]}"
    done
    own=("$(seconds own)" "$(memory /dev/null "$vemiktag" "${words[@]}")")
    if [ "$baseline" != - ]; then
        other=("$(seconds other)" "$(memory /dev/null "$baseline" "${words[@]}")")
        lines=equal
        cmp -s "$room/own.lines" "$room/other.lines" || lines=DIFFER
    fi
    if [ "$2" = "$counted" ]; then
        work[0]=$(instructions "$vemiktag" "${words[@]}")
        [ "$baseline" = - ] || work[1]=$(instructions "$baseline" "${words[@]}")
    fi
    printf '%7s %8s  %8s %8s %6s  %8s %8s %6s  %9s %9s %6s  %s\n' "$1" "$2" "${own[0]}" "${other[0]}" "$(ratio "${own[0]}" "${other[0]}")" \
        "${own[1]}" "${other[1]}" "$(ratio "${own[1]}" "${other[1]}")" "${work[0]}" "${work[1]}" "$(ratio "${work[0]}" "${work[1]}")" "$lines"
    [ "$lines" != DIFFER ]
}

# One log or session: a row of the second table.
log() {
    local word=log lines own
    [[ $1 == *.session ]] && word=session
    rm -f "$room"/*.runs
    for ((run = 0; run < runs; run++)); do
        measure own "$1" "$vemiktag" "$word"
    done
    own=("$(seconds own)" "$(memory "$1" "$vemiktag" "$word")")
    lines=$(wc -l <"$1")
    printf '%-8s %-32s %8s  %8s %8s  %12s\n' "$word" "$(basename "$1")" "$lines" "${own[0]}" "${own[1]}" \
        "$(awk -v s="${own[0]}" -v n="$lines" 'BEGIN { if (n) printf "%.2f", s * 100000 / n }')"
}

status=0
echo "$(uname -m), $(nproc) processors, $(awk -F': ' '/model name/ { print $2; exit }' /proc/cpuinfo), $(date -u +%F), load $(cut -d' ' -f1 /proc/loadavg), runs $runs, seed $seed"
printf '%7s %8s  %8s %8s %6s  %8s %8s %6s  %9s %9s %6s  %s\n' clients edits seconds baseline ratio MiB baseline ratio 'million' baseline ratio lines
for count in $clients; do
    for edit in $edits; do
        play "$count" "$edit" || status=1
    done
done
if [ $# -gt 0 ]; then
    printf '\n%-8s %-32s %8s  %8s %8s  %12s\n' words file lines seconds MiB 's of 100,000'
    for file in "$@"; do
        log "$file"
    done
fi
exit $status
