#!/bin/sh
# release.sh: makes dist/ of what is proved, and tries it.
#
#   dist/bin/vemiktag                     the program
#   dist/lib/libvemiktag_c.a              the static library, with the three functions over malloc that it wants
#   dist/lib/libvemiktag.so               the shared one, with the header's names alone
#   dist/lib/pkgconfig/vemiktag.pc        what pkg-config tells of it
#   dist/include/vemiktag.h               the header
#   dist/vemiktag-VERSION-..whl           a wheel for Python 3.8 and later, for which no compiler is needed
#   dist/SHA256SUMS
#
# The program is built by `rt run`, and the archive by `rt lib`, which prove them. Each says what was proved, with the sum of the logic: so say
# the libraries (`vemiktag_version` in C, `vemiktag.version()` in Python, `strings libvemiktag.so | grep '^vemiktag '`). It wants a C compiler,
# binutils and python3; the trial wants python3-venv, and where there is pkg-config it is tried too.
#
#   ARCHIVE=..   takes this archive, in place of building it
#   PROGRAM=..   takes this program, in place of building it
#   PROVED=..    a file with the line `logic=proved .. sum=..` of the run that built the archive that is taken; without it the libraries say
#                that it isn't told
#   VERSION=..   in place of 0.1.dev and the number of commits
#   OUT=..       into this folder, in place of dist; what this script made there before is removed
set -eu
here=$(cd "$(dirname "$0")" && pwd)
top=$(cd "$here/.." && pwd)
out=${OUT:-$top/dist}
kit=${KIT:-$(dirname "$(rt doc | head -n 1)")}
cc=${CC:-cc}
room=$(mktemp -d)
trap 'rm -rf "$room"' EXIT

fail() {
    echo "release.sh: $1" >&2
    exit 1
}

# ---- what is built

if [ -z "${ARCHIVE:-}" ]; then
    (cd "$top/crates/vemiktag_c" && rt lib) > "$room/proved" 2>&1 || { cat "$room/proved" >&2; fail "rt lib failed"; }
    ARCHIVE=$top/crates/vemiktag_c/out/libvemiktag_c.a
    PROVED=$room/proved
fi
if [ -z "${PROGRAM:-}" ]; then
    (cd "$top/crates/vemiktag" && rt run -- play 1 0 0) > "$room/program" 2>&1 || { cat "$room/program" >&2; fail "rt run failed"; }
    PROGRAM=$top/crates/vemiktag/out/vemiktag
fi
# The line of the library: in a gate's log the one before its crate is told as proved, else the last one.
proved="what was proved is not told"
if [ -n "${PROVED:-}" ]; then
    proved=$(awk '
        /^logic=proved / { line = $1; for (i = 2; i <= NF; i++) if ($i ~ /^sum=/) line = line " " $i }
        /^rt: vemiktag_c proved$/ { own = line }
        /^rt: .* proved$/ { of_gate = 1 }
        END { print of_gate ? own : line }
    ' "$PROVED")
    [ -n "$proved" ] || fail "$PROVED doesn't tell that vemiktag_c is proved"
fi

count=$(git -C "$top" rev-list --count HEAD)
commit=$(git -C "$top" describe --always --dirty)
version=${VERSION:-0.1.dev$count}
line="vemiktag $version, commit $commit, $(cut -d ' ' -f 1 "$kit/KIT-ID"), $proved"

# ---- the libraries

mkdir -p "$out"
out=$(cd "$out" && pwd)
rm -rf "${out:?}/bin" "${out:?}/lib" "$out/include" "$out"/vemiktag-*.whl
mkdir -p "$out/bin" "$out/lib/pkgconfig" "$out/include"
cp "$PROGRAM" "$out/bin/vemiktag"
cp "$top/include/vemiktag.h" "$out/include"
$cc -std=c11 -O2 -Wall -Wextra -Werror -fPIC -I"$top/include" -DVERSION="\"$line\"" -c -o "$room/version.o" "$top/examples/embed/version.c"

cp "$ARCHIVE" "$room/engine.a"
cp "$kit/c/liblibc_c.a" "$room/memory.a"
(
    cd "$room"
    printf 'CREATE whole.a\nADDLIB engine.a\nADDLIB memory.a\nADDMOD version.o\nSAVE\nEND\n' | ar -M
    ranlib -D whole.a
)
cp "$room/whole.a" "$out/lib/libvemiktag_c.a"

printf '{ global: vemiktag_*; local: *; };\n' > "$room/exports"
$cc -shared -s -o "$out/lib/libvemiktag.so" -Wl,-soname,libvemiktag.so -Wl,--version-script="$room/exports" -Wl,-z,defs,-z,relro,-z,now \
    "$room/version.o" -Wl,--whole-archive "$ARCHIVE" -Wl,--no-whole-archive "$kit/c/liblibc_c.a"

cat > "$out/lib/pkgconfig/vemiktag.pc" <<END
prefix=\${pcfiledir}/../..
includedir=\${prefix}/include
libdir=\${prefix}/lib
static_library=\${libdir}/libvemiktag_c.a

Name: vemiktag
Description: A proved engine for collaborative text and tables
Version: $version
Cflags: -I\${includedir}
Libs: -L\${libdir} -lvemiktag
END

wheel=$(python3 "$here/wheel.py" "$version" "$out/lib/libvemiktag.so" "$out")
(cd "$out" && find bin include lib "$wheel" -type f | sort | xargs sha256sum > SHA256SUMS)
echo "$line"

# ---- the trial: nothing of the kit is used

session=$top/examples/tea_at_five.session
report=$top/examples/embed/tea_at_five.report

"$out/bin/vemiktag" session < "$session" | cmp - "$report"
echo "program: the report of a session"

grep -o 'vemiktag_[a-z_]*\( *(\|\[\]\)' "$top/include/vemiktag.h" | grep -o 'vemiktag_[a-z_]*' | sort -u > "$room/declared"
nm -D --defined-only "$out/lib/libvemiktag.so" | cut -d ' ' -f 3 | sort > "$room/exported"
cmp "$room/declared" "$room/exported"
echo "libvemiktag.so: the $(wc -l < "$room/exported") names of the header alone"
[ "$(strings "$out/lib/libvemiktag.so" | grep '^vemiktag .*, ')" = "$line" ] || fail "the shared object doesn't say what it is"

$cc -std=c11 -o "$room/static" "$top/examples/embed/report.c" -I"$out/include" "$out/lib/libvemiktag_c.a"
"$room/static" < "$session" | cmp - "$report"
echo "libvemiktag_c.a: the same, and nothing else is linked"

if command -v pkg-config > /dev/null; then
    # shellcheck disable=SC2046
    $cc -std=c11 -o "$room/shared" "$top/examples/embed/report.c" $(PKG_CONFIG_PATH="$out/lib/pkgconfig" pkg-config --cflags --libs vemiktag)
    LD_LIBRARY_PATH="$out/lib" "$room/shared" < "$session" | cmp - "$report"
    echo "vemiktag.pc: the same over the shared object"
fi

python3 -m venv "$room/venv"
"$room/venv/bin/pip" install --quiet --disable-pip-version-check --no-index "$out/$wheel"
# Examples run where no module stands beside them.
mkdir "$room/scripts"
cp "$top/examples/embed/editors.py" "$top/examples/embed/shown.py" "$room/scripts"
cd "$room/scripts"
[ "$("$room/venv/bin/python" -c 'import vemiktag; print(vemiktag.version())')" = "$line" ] || fail "the wheel doesn't say what it is"
"$room/venv/bin/python" -m vemiktag session "$session" | cmp - "$report"
"$room/venv/bin/python" editors.py | cmp - "$top/examples/embed/editors.told"
"$room/venv/bin/python" shown.py > "$room/kinds"
echo "$wheel: installed by pip, a session, two editors, each kind of change"
