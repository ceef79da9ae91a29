#!/bin/sh
# Times lc3_line and lc3_page over all words against a plain C formatter, and counts the processor
# instructions of a line, which no load on the computer disturbs.
#
#   FANTHRIG_LIB_DIR     where libfanthrig.a is    build
#   CC              C compiler           gcc
#   BENCH_REPEATS   passes               200
set -eu
cd "$(dirname "$0")/../.."

lib=${FANTHRIG_LIB_DIR:-build}/libfanthrig.a
work=$(mktemp -d)
trap 'rm -rf "$work"' EXIT

[ -f "$lib" ] || { echo "host/bench/lines.sh: no $lib" >&2; exit 2; }

${CC:-gcc} -std=c11 -O3 -Wall -Wextra -Iinclude host/bench/lines.c "$lib" -o "$work/lines"
"$work/lines" "${BENCH_REPEATS:-200}"

command -v valgrind >/dev/null || exit 0

# instructions SIDE PASSES: all instructions of the process.
instructions() {
    valgrind --tool=callgrind --callgrind-out-file=/dev/null "$work/lines" count "$@" 2>&1 |
        sed -n 's/.*Collected *: *\([0-9]*\).*/\1/p'
}

# What starting costs is the same for any number of passes, so the difference counts lines alone.
for side in line plain-line page plain-page; do
    one=$(instructions $side 1)
    two=$(instructions $side 2)
    printf '%-10s %4d instructions a line\n' $side $(((two - one) / 65536))
done
