#!/usr/bin/env bash
# Counts the instructions of a played session twice: as `vemiktag play` plays it, and while each client tells what changes in its view (what it
# tells is counted, and let go of). Prints both numbers and how many times as many the second is.
#
# It builds a program of its own (bench/telling; how a client is listened to is a file of crates/ft_beside) over the libraries that `rt ci`
# left in this checkout: run it behind that. The build proves it, so it takes some minutes. Where LIBS names a folder, the library of a crate is
# LIBS/CRATE/CRATE.rlib; where PROGRAM names a file, the program is left there, and taken from there if there is one.
# usage: bench/telling.sh [CLIENTS EDITS SEED]
set -eu
cd "$(dirname "$0")/.."
words=("$@")
[ ${#words[@]} -eq 3 ] || words=(3 20000 1)
kit=$(dirname "$(rt doc | awk '{ print $NF }' | tail -1)")
room=$(mktemp -d)
trap 'rm -rf "$room"' EXIT
program=${PROGRAM:-$room/telling}

# The folder of a crate's library.
library() {
    if [ -n "${LIBS:-}" ]; then echo "$LIBS/$1"; else echo "$PWD/crates/$1/out/rlib"; fi
}

# Builds the program: a crate under the name of the one that it has the file of.
build() {
    local at=$room/ft_beside needs it flags
    mkdir -p "$at/src" "$at/proofs" "$at/out"
    cp crates/ft_beside/src/listening.rt "$at/src"
    [ ! -d crates/ft_beside/proofs/listening ] || cp -r crates/ft_beside/proofs/listening "$at/proofs"
    for it in bench/telling/*.rattle; do
        cp "$it" "$at/src/$(basename "$it" .rattle).rt"
    done
    needs=$(sed -n 's/^ft_beside: //p' crates.txt)
    flags=(--crate-name ft_beside src/main.rt --extern "std=$kit/rlibs/std.rlib" -L "dependency=$kit/rlibs")
    for it in $needs; do
        if [ -d "crates/$it" ]; then flags+=(--extern "$it=$(library "$it")/$it.rlib"); else flags+=(--extern "$it=$kit/rlibs/$it.rlib"); fi
    done
    for it in crates/*/; do
        it=$(basename "$it")
        [ ! -e "$(library "$it")" ] || flags+=(-L "dependency=$(library "$it")")
    done
    flags+=(--antt-project "$kit/rattle/logic/antt-project.json" --logic-built "$kit/logic_built" --links 'ft_beside=' --jobs 2)
    (cd "$at" && "$kit/bin/rattle" build "${flags[@]}" --toolchain "$kit/toolchain" --backend llvm -o "$room/telling.o" >"$room/said" 2>&1) || {
        tail -40 "$room/said"
        exit 1
    }
    "$kit/bin/rattle-link" --target x86_64-unknown-linux-gnu --toolchain "$kit/toolchain" -o "$program" "$room/telling.o" "$kit/c/libos_c.a" "$kit/c/liblibc_c.a"
}

# The instructions of the program with these words; what it writes goes to a file.
instructions() {
    valgrind --tool=callgrind --callgrind-out-file=/dev/null "$program" "$@" 2>&1 >"$room/$1" </dev/null | awk '/Collected/ { print $4 }'
}

[ -x "$program" ] || build
played=$(instructions play "${words[@]}")
told=$(instructions told "${words[@]}")
cmp -s "$room/play" "$room/told" || { echo "the two sessions end differently" >&2; exit 1; }
awk -v words="${words[*]}" -v played="$played" -v told="$told" \
    'BEGIN { printf "play %s: %.1f million instructions; told: %.1f million, %.3f times as many\n", words, played / 1e6, told / 1e6, told / played }'
