#!/bin/sh
# Times the library's run and long run against the three C interpreters and prints a table.
#
# An object that the linker moves by 16 to 48 bytes can run a quarter slower or faster, so one
# binary says little. The benchmark is linked in several layouts, with padding before and between
# the objects that are compared, the library's before or after the interpreters'; each figure is the
# median over the layouts of the best time in each. Exits 1 where the library takes more than
# BENCH_LIMIT of the plain interpreter's time. The expert's interpreter makes no steps that meet a
# device: programs with such have no time of it.
#
#   FANTHRIG_LIB_DIR     where libfanthrig.a is                           build
#   CC              C compiler for the interpreters               gcc
#   BENCH_CASES     random cases compared before the timing     4000
#   BENCH_LAYOUTS   layouts                                     8
#   BENCH_REPEATS   repeats in each layout                      80
#   BENCH_MS        milliseconds of each repeat                 10
#   BENCH_LIMIT     highest ratio allowed                       1.00
#   BENCH_TARGET    ratio aimed at                              0.85
set -eu
export LC_ALL=C
cd "$(dirname "$0")/../.."

lib=${FANTHRIG_LIB_DIR:-build}/libfanthrig.a
cc=${CC:-gcc}
layouts=${BENCH_LAYOUTS:-8}
work=$(mktemp -d)
trap 'rm -rf "$work"' EXIT

[ -f "$lib" ] || { echo "host/bench/run.sh: no $lib" >&2; exit 2; }

for part in bench plain tuned expert; do
    $cc -std=c11 -O3 -Wall -Wextra -Iinclude -c host/bench/$part.c -o "$work/$part.o"
done

# padding FILE BYTES: an object with that much text.
padding() {
    printf '.text\n.skip %d\n.section .note.GNU-stack,"",@progbits\n' "$2" |
        $cc -c -x assembler - -o "$1"
}

layout=1
while [ "$layout" -le "$layouts" ]; do
    # Multiples of 16 bytes; the second goes through them in another order than the first.
    padding "$work/before.o" $((layout * 16))
    padding "$work/between.o" $(((layout * 3 % 8 + 1) * 16))
    objects="$work/plain.o $work/between.o $work/tuned.o $work/expert.o"
    if [ $((layout % 2)) = 0 ]; then objects="$objects $lib"; else objects="$lib $objects"; fi
    # $objects is a list of words.
    # shellcheck disable=SC2086
    $cc "$work/bench.o" "$work/before.o" $objects -o "$work/bench-$layout"
    layout=$((layout + 1))
done

"$work/bench-1" check "${BENCH_CASES:-4000}"

layout=1
while [ "$layout" -le "$layouts" ]; do
    "$work/bench-$layout" time "${BENCH_REPEATS:-80}" "${BENCH_MS:-10}"
    layout=$((layout + 1))
done >"$work/times"

# name, median over the layouts
sort -k1,1 -k2,2n "$work/times" | awk '
    function emit() { if (count) print name, (t[int((count + 1) / 2)] + t[int(count / 2) + 1]) / 2 }
    $1 != name { emit(); name = $1; count = 0 }
    { t[++count] = $2 }
    END { emit() }' >"$work/medians"

awk -v limit="${BENCH_LIMIT:-1.00}" -v target="${BENCH_TARGET:-0.85}" '
    { ns[$1] = $2 }
    function call(name, text) {
        printf "%-28s %8.1f ns %14.0f calls a second\n", text, ns[name], 1e9 / ns[name]
    }
    END {
        printf "%-8s %16s %12s %7s %15s %7s %15s %7s %16s %7s\n", "program", "library ns/step",
            "long ns/step", "ratio", "plain C ns/step", "ratio", "tuned C ns/step", "ratio",
            "expert C ns/step", "ratio"
        programs = split("count timer copy sieve self calls outs wander last poll show hello echo", program, " ")
        for (i = 1; i <= programs; i++) {
            a = ns[program[i] ".library"]
            l = ns[program[i] ".long"]
            b = ns[program[i] ".plain"]
            c = ns[program[i] ".tuned"]
            if (a / b > worst) worst = a / b
            printf "%-8s %16.2f %12.2f %7.2f %15.2f %7.2f %15.2f %7.2f", program[i], a, l, l / a, b,
                a / b, c, a / c
            e = program[i] ".expert"
            if (e in ns) printf " %16.2f %7.2f", ns[e], l / ns[e]
            print ""
        }
        print "ratios: the long run to the run; the run to plain C and tuned C; the long run to the expert'\''s C"
        print ""
        call("lc3_run", "lc3_run with n = 1")
        call("lc3_step", "lc3_step")
        call("refused-11", "lc3_run refused with 11")
        call("refused-15", "lc3_run refused with 15")
        call("lc3_read", "lc3_read")
        call("lc3_write", "lc3_write")
        printf "\ntarget %.2f: %s; limit %.2f: %s\n", target, worst <= target ? "met" : "not met",
            limit, worst <= limit ? "kept" : "EXCEEDED"
        exit !(worst <= limit)
    }' "$work/medians"
