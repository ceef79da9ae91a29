#!/bin/sh
# symbols.sh EXPORT NAME...: prints the local functions of the object that holds EXPORT, and exits 1
# if one of them matches none of the names (shell patterns).
#
# A run, logged or not, is fast because one step, and the reading of its word, are inlined into its
# one loop. A second call of either anywhere in that object undoes this without any other sign than
# a local function more. Beside a single step, for which no name is given, there must be none.
#
#   FANTHRIG_LIB_DIR   where libfanthrig.a is   build
set -eu
cd "$(dirname "$0")/../.."

lib=${FANTHRIG_LIB_DIR:-build}/libfanthrig.a
export=$1
shift

# nm -A: archive:member:address type name
object=$(nm -A --defined-only "$lib" | sed -n "s/^[^:]*:\([^:]*\):[^ ]* T $export\$/\1/p")
[ -n "$object" ] || { echo "host/bench/symbols.sh: no $export in $lib" >&2; exit 2; }

allowed() {
    for pattern; do
        # shellcheck disable=SC2254
        case $symbol in $pattern) return 0 ;; esac
    done
    return 1
}

status=0
echo "local functions beside $export in $object:"
for symbol in $(nm -A --defined-only "$lib" |
    sed -n "s/^[^:]*:$object:[^ ]* t \(.*\)\$/\1/p"); do
    if allowed "$@"; then
        echo "  $symbol"
    else
        echo "  $symbol: not in the list of allowed names"
        status=1
    fi
done
exit $status
