#!/bin/sh
# web.sh: makes dist/web: vemiktag.wasm, vemiktag.js, vemiktag.d.ts, and an npm package of them.
#
# `rt lib` proves crates/vemiktag_c and all below it, and hands clang a module of what it has proved. That module is kept, retargeted to
# WebAssembly with 64-bit memories, compiled by the kit's clang, and linked with examples/web/heap.c and wide.c. A module that wants anything else
# doesn't link.
#
#   MODULE=..   takes this module, in place of the one of `rt lib`, which takes an hour where nothing was proved before
#   OUT=..      makes it in this folder, in place of dist/web
#
# Besides the kit it wants npm, for the package alone.
set -eu
top=$(cd "$(dirname "$0")/.." && pwd)
kit=${KIT:-$(dirname "$(rt doc | head -n 1)")}
out=${OUT:-$top/dist/web}
web=$top/examples/web
clang=$kit/toolchain/bin/clang
target=wasm64-unknown-unknown
stack=4194304

room=$(mktemp -d)
building=
trap '[ -z "$building" ] || kill "$building" 2> /dev/null || true; rm -rf "$room"' EXIT
trap 'exit 1' HUP INT TERM

# Keeps the module that `rt lib` compiles. It lies in a temporary folder until clang is through; a link that is made meanwhile keeps it.
keep_module() {
    mkdir "$room/rt"
    (cd "$top/crates/vemiktag_c" && TMPDIR=$room/rt exec rt lib) &
    building=$!
    while kill -0 "$building" 2> /dev/null; do
        find "$room/rt" -name module.bc -size +100k -exec ln -f {} "$room/module.bc" \; 2> /dev/null || true
        sleep 0.1
    done
    wait "$building"
    building=
    [ -s "$room/module.bc" ] || { echo "web.sh: rt lib compiled no module that was seen" >&2; exit 1; }
}

# The two lines that tell a module's target, as clang itself writes them.
target_lines() {
    : > "$room/empty.c"
    "$clang" --target=$target --no-default-config -S -emit-llvm -o - "$room/empty.c" | grep '^target '
}

# Retargets the module: its target's lines are those of WebAssembly, and what is said of a processor and of a stack's pages is left out. The
# code isn't touched.
retarget() {
    "$clang" --no-default-config -x ir "$1" -S -emit-llvm -Xclang -disable-llvm-passes -o "$room/native.ll"
    target_lines > "$room/module.ll"
    sed -e '/^target \(datalayout\|triple\) = /d' \
        -e '/^attributes #/ s/ "\(target-cpu\|target-features\|tune-cpu\|frame-pointer\|probe-stack\|stack-probe-size\)"="[^"]*"//g' \
        -e '/^attributes #/ s/{ *}/{ "retargeted" }/' \
        "$room/native.ll" >> "$room/module.ll"
    rm "$room/native.ll"
}

compile() {
    "$clang" --target=$target --no-default-config -O3 -c "$@"
}

compile_c() {
    compile -std=c11 -ffreestanding -fno-builtin -Wall -Wextra -Werror -o "$room/$1.o" "$web/$1.c"
}

# The functions that vemiktag.h declares, and those of the heap that a page calls.
exports() {
    grep -o '^uint32_t vemiktag_[a-z_]*' "$top/include/vemiktag.h" | sed 's/^uint32_t /--export=/'
    printf '%s\n' --export=heap_take --export=heap_give --export=heap_limit
}

# The stack stands first in the memory: one that is too deep ends in a trap, and writes over nothing.
link() {
    ln -s "$clang" "$room/wasm-ld"
    # shellcheck disable=SC2046
    "$room/wasm-ld" -mwasm64 --no-entry $(exports) --stack-first -z stack-size=$stack --strip-all \
        -o "$out/vemiktag.wasm" "$room/module.o" "$room/heap.o" "$room/wide.o"
}

pack() {
    cp "$web/vemiktag.js" "$web/vemiktag.d.ts" "$web/package.json" "$web/README.md" "$top/LICENSE" "$out"
    if command -v npm > /dev/null; then
        (cd "$out" && npm pack --silent)
    else
        echo "web.sh: no npm, so no package" >&2
    fi
}

mkdir -p "$out"
[ -n "${MODULE:-}" ] || keep_module
retarget "${MODULE:-$room/module.bc}"
compile -x ir -o "$room/module.o" "$room/module.ll"
compile_c heap
compile_c wide
link
pack
ls -l "$out"
