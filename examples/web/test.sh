#!/bin/sh
# test.sh: tests what tools/web.sh made: the heap beside a model, and the engine beside the native library, in node and in headless Chromium.
#
#   ARCHIVE=..   compares with this archive, in place of crates/vemiktag_c/out/libvemiktag_c.a
#   WEB=..       tests what is in this folder, in place of dist/web
#   SESSIONS=..  so many pseudo-random sessions, in place of 2,000
#   OUT=..       builds into this folder, in place of examples/web/out
#
# Packages: gcc, libc6-dev, python3, chromium, and node from version 20 on. Where node or Chromium isn't there, that is said.
set -eu
here=$(cd "$(dirname "$0")" && pwd)
top=$(cd "$here/../.." && pwd)
kit=${KIT:-$(dirname "$(rt doc | head -n 1)")}
out=${OUT:-$here/out}
web=${WEB:-$top/dist/web}
archive=${ARCHIVE:-$top/crates/vemiktag_c/out/libvemiktag_c.a}
cc=${CC:-cc}

# Compiles with all warnings.
compile() {
    $cc -std=c11 -Wall -Wextra -Werror "$@"
}

test_heap() {
    compile -O1 -g -fsanitize=address,undefined -fno-sanitize-recover=all -o "$out/heap_test" "$here/heap_test.c"
    for seed in 1 2 3; do
        "$out/heap_test" "$seed"
    done
}

# What the page and node are given: the package's files, the tests, and the cases with the native reports.
gather() {
    compile -O2 -I"$top/include" -o "$out/report" "$top/examples/embed/report.c" "$archive" "$kit/c/liblibc_c.a"
    python3 "$here/cases.py" "$out/report" "${SESSIONS:-2000}" > "$out/cases.json"
    cp "$web/vemiktag.wasm" "$web/vemiktag.js" "$here/package.json" "$out"
    for name in editors.js expect.js tests.js typists.js tests_node.js tests.html; do
        cp "$here/$name" "$out"
    done
}

# How fast the native library is at the session that the engine is timed with.
time_native() {
    python3 - "$out" <<'EOF'
import json, os, subprocess, sys, time
folder = sys.argv[1]
with open(os.path.join(folder, 'cases.json'), encoding='utf-8') as file:
    given = json.load(file)['long']['input'].encode('latin-1')
times = []
for _ in range(3):
    begin = time.monotonic()
    subprocess.run([os.path.join(folder, 'report')], input=given, stdout=subprocess.DEVNULL, check=True)
    times.append(time.monotonic() - begin)
print(f'native: the report of 20,000 edits takes {min(times) * 1000:.0f} ms')
EOF
}

# Before version 24 node has 64-bit memories and the digits of numbers behind flags.
test_node() {
    version=$(node -p 'parseInt(process.versions.node)' 2> /dev/null || echo 0)
    flags=
    [ "$version" -ge 24 ] || flags="--experimental-wasm-memory64 --harmony-json-parse-with-source"
    if [ "$version" -ge 20 ]; then
        # shellcheck disable=SC2086
        node $flags "$out/tests_node.js"
    else
        echo "node: passed over, since there is none from version 20 on"
    fi
}

test_page() {
    if command -v chromium > /dev/null; then
        python3 "$here/tests_page.py" "$out"
    else
        echo "Chromium: passed over, since there is none"
    fi
}

mkdir -p "$out"
test_heap
gather
time_native
test_node
test_page
