#!/usr/bin/env bash
# How many questions for the intervals that meet a range `vemiktag session` answers in a second of processor time. It builds nothing.
#
#     bench/overlaps.sh VEMIKTAG [BASELINE]
#
# A client has a text of 100,000 characters with INTERVALS acknowledged intervals of one label; a question of a place of the text is
# answered by no interval, by 1, or by 10. A session with the questions and the same session without them run by turns, RUNS times; the
# figure is by the median of what the first took longer, with so many questions that this is a second, or with MOST of them. BASELINE is
# another build of the same program, such as one that filters the whole view for each question: it is told beside, with how many times
# as much that is, and whether both answer the first 100 questions alike (DIFFER: the status is 1).
#
# By the environment: INTERVALS (1000 10000 100000, each a multiple of 20), RUNS (3), MOST (102400), SEED (1).
set -u
if [ $# -lt 1 ] || [ $# -gt 2 ]; then
    sed -n '2,/^set/{/^#/s/^# \{0,1\}//p}' "$0"
    exit 2
fi
programs=("$@")
counts=${INTERVALS:-1000 10000 100000}
runs=${RUNS:-3}
most=${MOST:-102400}
seed=${SEED:-1}
characters=100000
first=100
TIMEFORMAT='%3U %3S'
room=$(mktemp -d)
trap 'rm -rf "$room"' EXIT

# A session of one client with so many intervals, and behind them so many questions with so many answers each. The text is in parts of equal
# length with 20 intervals each: none at the first place of a part, one at the second, ten at the third, and the others behind.
session() {
    awk -v intervals="$1" -v questions="$2" -v answers="$3" -v characters="$characters" -v seed="$seed" '
        function act(name) { printf "{\"client\":\"ana\",\"do\":\"%s\"%s}\n", name, name == "ticket" || name == "deliver" ? ",\"count\":\"all\"" : "" }
        function agree() { act("ticket"); act("deliver") }
        BEGIN {
            srand(seed)
            parts = intervals / 20
            width = int(characters / parts)
            act("start"); act("connect"); act("deliver")
            letters = sprintf("%1000s", "")
            gsub(/ /, "e", letters)
            for (i = 0; i < characters / 1000; i++)
                printf "{\"address\":\"text\",\"client\":\"ana\",\"do\":\"edit\",\"op\":{\"pos1\":0,\"seg\":\"%s\",\"type\":0}}\n", letters
            agree()
            for (i = 0; i < intervals; i++) {
                place = i % 20
                start = int(i / 20) * width + (place < 1 ? 1 : place < 11 ? 2 : place - 8)
                end = place < 11 ? start : int(i / 20) * width + 11
                printf "{\"address\":\"text\",\"client\":\"ana\",\"do\":\"edit\",\"op\":{\"end\":%d,\"id\":\"i%06d\",\"interval\":\"add\",\"label\":\"notes\",\"start\":%d}}\n", end, i, start
                if (i % 100 == 99)
                    agree()
            }
            agree()
            for (i = 0; i < questions; i++) {
                at = int(rand() * parts) * width + (answers == 0 ? 0 : answers == 1 ? 1 : 2)
                printf "{\"client\":\"ana\",\"do\":\"overlap\",\"end\":%d,\"label\":\"notes\",\"start\":%d}\n", at, at
            }
        }'
}

# The processor milliseconds of a program with a session; its lines stay in a third file.
run_time() {
    { time "$1" session <"$2" >"$3" 2>/dev/null; } 2>&1 | awk '{ printf "%d\n", ($1 + $2) * 1000 }'
}

# How many milliseconds longer a program takes with the questions: the median of so many runs.
longer() {
    for ((run = 0; run < $2; run++)); do
        local before
        before=$(run_time "$1" "$room/plain" "$room/none.lines")
        echo $(($(run_time "$1" "$room/asked" "$room/lines") - before))
    done | sort -n | awk '{ took[NR] = $1 } END { print took[int((NR + 1) / 2)] }'
}

# The questions a second that a program answers, with so many intervals and answers to each: as many as take a second.
rate() {
    local questions=$first took=0
    while :; do
        session "$2" "$questions" "$3" >"$room/asked"
        took=$(longer "$1" 1)
        [ "$took" -ge 1000 ] || [ "$questions" -ge "$most" ] && break
        questions=$((questions * 4 > most ? most : questions * 4))
    done
    took=$(longer "$1" "$runs")
    echo $((questions * 1000 / (took > 0 ? took : 1)))
}

status=0
echo "$(uname -m), $(nproc) processors, $(awk -F': ' '/model name/ { print $2; exit }' /proc/cpuinfo), $(date -u +%F), load $(cut -d' ' -f1 /proc/loadavg), runs $runs, seed $seed"
printf '%9s %7s  %12s %12s %7s  %s\n' intervals answers 'a second' baseline ratio lines
for count in $counts; do
    session "$count" 0 0 >"$room/plain"
    for answers in 0 1 10; do
        own=$(rate "${programs[0]}" "$count" "$answers")
        other=- ratio=- lines=-
        if [ ${#programs[@]} = 2 ]; then
            other=$(rate "${programs[1]}" "$count" "$answers")
            ratio=$(awk -v a="$own" -v b="$other" 'BEGIN { if (b) printf "%.1f", a / b; else print "-" }')
            session "$count" "$first" "$answers" >"$room/asked"
            for program in 0 1; do
                run_time "${programs[$program]}" "$room/asked" "$room/$program.lines" >/dev/null
            done
            lines=equal
            cmp -s "$room/0.lines" "$room/1.lines" || { lines=DIFFER; status=1; }
        fi
        printf '%9s %7s  %12s %12s %7s  %s\n' "$count" "$answers" "$own" "$other" "$ratio" "$lines"
    done
done
exit $status
