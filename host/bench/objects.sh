#!/bin/sh
# Times the starting and writing of an object file against a byte-swapping copy in C, and prints a
# table. Exits 1 where the library takes more than OBJECTS_LIMIT of the copy's time.
#
#   FANTHRIG_LIB_DIR       where libfanthrig.a is         build
#   CC                C compiler for the copy   gcc
#   OBJECTS_REPEATS   repeats                   200
#   OBJECTS_CALLS     calls of each repeat      50
#   OBJECTS_LIMIT     highest ratio allowed     1.25
set -eu
export LC_ALL=C
cd "$(dirname "$0")/../.."

lib=${FANTHRIG_LIB_DIR:-build}/libfanthrig.a
work=$(mktemp -d)
trap 'rm -rf "$work"' EXIT

[ -f "$lib" ] || { echo "host/bench/objects.sh: no $lib" >&2; exit 2; }

${CC:-gcc} -std=gnu11 -O3 -Iinclude host/bench/objects.c "$lib" -o "$work/objects"
"$work/objects" "${OBJECTS_REPEATS:-200}" "${OBJECTS_CALLS:-50}" |
    awk -v limit="${OBJECTS_LIMIT:-1.25}" '
    BEGIN {
        bytes = 131072
        printf "%-10s %14s %14s %8s\n", "65,535 words", "library GB/s", "copy GB/s", "ratio"
    }
    {
        if ($2 / $3 > worst) worst = $2 / $3
        printf "%-10s %16.1f %14.1f %8.2f\n", $1, bytes / $2, bytes / $3, $2 / $3
    }
    END {
        printf "\nlimit %.2f: %s\n", limit, worst <= limit ? "kept" : "EXCEEDED"
        exit !(worst <= limit)
    }'
