#!/usr/bin/env bash
# Runs `rt ci` with the words that it is given (none: the whole gate) and prints what the checks of each crate took, the dearest first:
# processor minutes of its own check, of that of its tests, of those of its wrong bodies, and of what compiled it, and the greatest
# memory of one of these. Behind them stand the sums, what was taken beside them, the whole, and the longest chain of crates that stand on
# each other, by their own checks.
#
# The checkers are looked at every two seconds (EVERY). What one takes behind its last look is in the line "beside" alone, together with
# what `rt` itself and the programs take. What an earlier run proved on this machine is kept and costs nothing here: from nothing is on a
# machine where nothing is kept.
# usage: bench/gate.sh [NAME..]
set -u
cd "$(dirname "$0")/.." || exit 1
every=${EVERY:-2}
hertz=$(getconf CLK_TCK)
whole=$(mktemp)
trap 'rm -f "$whole"' EXIT

declare -A ticks kinds peaks

# The checkers that this gate has started: its descendants of that name, without those that one of these started.
checkers() {
    ps -eo pid=,ppid=,comm= | awk -v gate="$1" '
        { parent[$1] = $2; name[$1] = $3 }
        END {
            for (process in name) {
                if (name[process] != "rattle" || name[parent[process]] == "rattle")
                    continue
                above = process
                while (above in parent && above != gate)
                    above = parent[above]
                if (above == gate)
                    print process
            }
        }'
}

# The kind of work of a checker, by its words and the folder in which it runs.
kind_of() {
    case "$1" in
    *' --test '*) echo tests ;;
    *' --backend '*) echo compiled ;;
    *) case "$2" in
        */rt-edit*) echo edits ;;
        *) echo itself ;;
        esac ;;
    esac
}

# Notes what each checker has taken so far, with the processes that it waited for, and the most memory that it had.
look() {
    local process folder words fields peak
    for process in $(checkers "$gate"); do
        folder=$(readlink "/proc/$process/cwd") || continue
        words=$(tr '\0' ' ' <"/proc/$process/cmdline")
        [[ $words =~ \ --crate-name\ ([^ ]+) ]] || continue
        kinds[$process]="${BASH_REMATCH[1]} $(kind_of "$words" "$folder")"
        read -r -a fields < <(sed 's/.*) //' "/proc/$process/stat")
        [ ${#fields[@]} -gt 14 ] || continue
        ticks[$process]=$((fields[11] + fields[12] + fields[13] + fields[14]))
        peak=$(awk '/^VmHWM/ { print $2 }' "/proc/$process/status")
        peaks[$process]=${peak:-${peaks[$process]:-0}}
    done 2>/dev/null
}

# The table, from what was noted, the seconds of the whole and the crates with those that they stand on.
table() {
    local process
    {
        sed 's/^/whole /' "$whole"
        sed -n 's/#.*//; s/^ *\([a-z_0-9]*\)[^:]*:\(.*\)/above \1 \2/p' crates.txt
        for process in "${!ticks[@]}"; do
            echo "checker ${kinds[$process]} ${ticks[$process]} ${peaks[$process]}"
        done
    } | awk -v hertz="$hertz" '
        function row(name, itself, tests, edits, compiled, peak) {
            return sprintf("%-20s %7.1f %7.1f %7.1f %9.1f %7.1f %7.1f", name, itself, tests, edits, compiled, itself + tests + edits + compiled, peak)
        }
        # The minutes of the longest chain that ends in a crate; it begins with the crate that next_below names, and so on.
        function chain(crate, names, count, i, best, minutes) {
            if (crate in chains)
                return chains[crate]
            count = split(below[crate], names, " ")
            best = 0
            for (i = 1; i <= count; i++) {
                minutes = chain(names[i])
                if (minutes > best) { best = minutes; next_below[crate] = names[i] }
            }
            return chains[crate] = best + spent[crate, "itself"]
        }
        $1 == "whole" && NF == 4 { elapsed = $2 / 60; all = ($3 + $4) / 60 }
        $1 == "above" { name = $2; $1 = $2 = ""; below[name] = $0 }
        $1 == "checker" {
            minutes = $4 / hertz / 60
            spent[$2, $3] += minutes; kinds[$3] += minutes; sum += minutes; crates[$2] += minutes
            if ($5 / 1048576 > peaks[$2]) peaks[$2] = $5 / 1048576
            if ($5 / 1048576 > peak) peak = $5 / 1048576
        }
        END {
            printf "%-20s %7s %7s %7s %9s %7s %7s\n", "crate", "itself", "tests", "edits", "compiled", "all", "GiB"
            for (c in crates)
                print row(c, spent[c, "itself"], spent[c, "tests"], spent[c, "edits"], spent[c, "compiled"], peaks[c]) | "sort -k6,6 -nr"
            close("sort -k6,6 -nr")
            print row("all", kinds["itself"], kinds["tests"], kinds["edits"], kinds["compiled"], peak)
            printf "%-20s %41.1f\n%-20s %41.1f   in %.1f minutes\n", "beside", all - sum, "the whole", all, elapsed
            for (c in crates)
                if (chain(c) > longest) { longest = chain(c); last = c }
            printf "longest chain %.1f:", longest
            for (c = last; c != ""; c = next_below[c]) printf " %s %.1f", c, spent[c, "itself"]
            print ""
        }'
}

/usr/bin/time -q -o "$whole" -f '%e %U %S' rt ci "$@" &
gate=$!
while kill -0 "$gate" 2>/dev/null; do
    look
    sleep "$every"
done
wait "$gate"
status=$?
echo "$(nproc) processors, $(awk -F': ' '/model name/ { print $2; exit }' /proc/cpuinfo), $(date -u +%F), $(awk '{ print $1; exit }' "$(dirname "$(rt doc | awk 'END { print $NF }')")/KIT-ID" 2>/dev/null)"
table
exit $status
