#!/bin/sh
# build.sh: builds the static library and the examples for C and Python, runs them on two sessions, and compares what they
# write with what `vemiktag session` writes: tea_at_five.report here, and readme_history.report of examples. Two editors, each with a client,
# show what is in editors.told.
#
#   ASAN=1       with the address, leak and undefined behaviour sanitizers of the C compiler
#   VALGRIND=1   under valgrind
#   ARCHIVE=..   takes this archive, in place of building it by `rt lib` in crates/vemiktag_c
#   PROGRAM=..   compares what comes of random editors with this program's `log`, too
#   OUT=..       builds into this folder, in place of examples/embed/out
set -eu
here=$(cd "$(dirname "$0")" && pwd)
top=$(cd "$here/../.." && pwd)
kit=${KIT:-$(dirname "$(rt doc | head -n 1)")}
out=${OUT:-$here/out}
archive=${ARCHIVE:-$top/crates/vemiktag_c/out/libvemiktag_c.a}
memory=$kit/c/liblibc_c.a
cc=${CC:-cc}

flags="-std=c11 -O2 -Wall -Wextra -Werror -I$top/include"
under=
[ -z "${ASAN:-}" ] || flags="$flags -g -fsanitize=address,undefined -fno-sanitize-recover=all"
[ -z "${VALGRIND:-}" ] || under="valgrind --quiet --leak-check=full --error-exitcode=99"

mkdir -p "$out"
[ -n "${ARCHIVE:-}" ] || (cd "$top/crates/vemiktag_c" && rt lib)
# shellcheck disable=SC2086
$cc $flags -o "$out/report" "$here/report.c" "$archive" "$memory"
# shellcheck disable=SC2086
$cc $flags -o "$out/session" "$here/session.c" "$archive" "$memory"
# shellcheck disable=SC2086
$cc $flags -Wl,--wrap=malloc,--wrap=realloc -o "$out/handles" "$here/handles.c" "$archive" "$memory"
# shellcheck disable=SC2086
$cc $flags -o "$out/client" "$here/client.c" "$archive" "$memory"
# shellcheck disable=SC2086
$cc $flags -Wl,--wrap=malloc,--wrap=realloc -o "$out/clients" "$here/clients.c" "$archive" "$memory"
# shellcheck disable=SC2086
$cc $flags -Wl,--wrap=malloc,--wrap=realloc -o "$out/edges" "$here/edges.c" "$archive" "$memory"
printf '{ global: vemiktag_*; local: *; };\n' > "$out/exports"
$cc -std=c11 -fPIC -I"$top/include" -DVERSION='"vemiktag for a test; what was proved is not told"' -c -o "$out/version.o" "$here/version.c"
$cc -shared -o "$out/libvemiktag.so" -Wl,--version-script="$out/exports" "$out/version.o" \
    -Wl,--whole-archive "$archive" -Wl,--no-whole-archive "$memory"

# Runs a program on a session, and compares what it writes with the report.
compare() {
    name=$1
    session=$2
    report=$3
    shift 3
    status=0
    "$@" < "$session" > "$out/told" || status=$?
    if [ "$status" -ne 0 ]; then
        echo "$name: ended with $status"
        exit 1
    fi
    cmp "$report" "$out/told"
    echo "$name: as vemiktag session"
}

# Runs a program on both sessions.
compare_both() {
    language=$1
    shift
    compare "$language, tea_at_five" "$top/examples/tea_at_five.session" "$here/tea_at_five.report" "$@"
    compare "$language, readme_history" "$top/examples/readme_history.session" "$top/examples/readme_history.report" "$@"
}

# shellcheck disable=SC2086
compare_both "C" $under "$out/report"
# shellcheck disable=SC2086
compare_both "C, line by line" $under "$out/session"
export VEMIKTAG_SO="$out/libvemiktag.so" PYTHONDONTWRITEBYTECODE=1
compare_both "Python" python3 "$here/report.py"
compare_both "Python, line by line" python3 "$here/session.py"
# shellcheck disable=SC2086
$under "$out/edges" < "$top/examples/tea_at_five.session"
# shellcheck disable=SC2086
$under "$out/handles" < "$top/examples/tea_at_five.session"
# shellcheck disable=SC2086
$under "$out/client" | cmp - "$here/editors.told"
echo "C, two editors: as editors.told"
python3 "$here/editors.py" | cmp - "$here/editors.told"
echo "Python, two editors: as editors.told, by views and by changes"
python3 "$here/raises.py"
[ "$(python3 "$here/shown.py")" = "Cell Gone Interval Put PutUnits Style Take TakeUnits" ]
echo "Python, each kind of change: as the view"
for seed in 1 2 3; do
    python3 "$here/told.py" "$seed" 2000 > "$out/told"
done
echo "Python, three editors that type at random: changes and views are the same"
for editors in 2 3 4 5; do
    # shellcheck disable=SC2086
    python3 "$here/unruly.py" "$editors" "$editors" 1000 ${PROGRAM:-}
done
echo "Python, two to five editors over an unruly network: all show the same, and so does the log"
# shellcheck disable=SC2086
$under "$out/clients"
