#!/bin/sh
# Compiles the header by every standard from C89 and C++98 on without a warning, runs the test of
# the interface and the guide's example, and sees that header, library and the shared library's
# SONAME have one version.
#
#   FANTHRIG_LIB_DIR   where libfanthrig.a and libfanthrig.so are   build
#   CC, CXX       compilers                          gcc, g++; clang as well where it is there
set -eu
cd "$(dirname "$0")/../.."

dir=${FANTHRIG_LIB_DIR:-build}
lib=$dir/libfanthrig.a
strict="-Wall -Wextra -Werror -pedantic -Iinclude"
work=$(mktemp -d)
trap 'rm -rf "$work"' EXIT

[ -f "$lib" ] || { echo "host/c/run.sh: no $lib" >&2; exit 2; }

# $strict is a list of words.
# shellcheck disable=SC2086
header() { # COMPILER LANGUAGE STANDARD..: the header alone, by each standard
    compiler=$1 language=$2
    shift 2
    command -v "$compiler" >/dev/null || return 0
    for standard; do "$compiler" -x "$language" "-std=$standard" $strict -fsyntax-only host/c/header.cpp; done
}
for compiler in "${CC:-gcc}" clang; do header "$compiler" c c89 c99 c11 c17; done
for compiler in "${CXX:-g++}" clang++; do header "$compiler" c++ c++98 c++11 c++17 c++20; done
# shellcheck disable=SC2086
${CC:-gcc} -std=c11 -O1 -g $strict -fsanitize=address,undefined host/c/interface.c "$lib" \
    -o "$work/interface"
awk '/^```c$/ { on = 1; next } /^```$/ { on = 0 } on' docs/GUIDE.md >"$work/guide.c"
# shellcheck disable=SC2086
${CC:-gcc} -std=c11 $strict "$work/guide.c" "$lib" -o "$work/guide"
# shellcheck disable=SC2086
${CC:-gcc} -std=c11 $strict host/c/version.c -L"$dir" -lfanthrig -o "$work/version"
"$work/guide"
LD_LIBRARY_PATH=$dir "$work/version"
"$work/interface"

# What a host that was linked with the shared library asks for is its SONAME.
version=$(sed -n 's/^#define LC3_VERSION //p' include/fanthrig/lc3.h)
asked=$(readelf -d "$work/version" | sed -n 's/.*(NEEDED).*\[\(libfanthrig.*\)\]$/\1/p')
[ "$asked" = "libfanthrig.so.$version" ] ||
    { echo "host/c/run.sh: the SONAME is $asked, and the header's version $version" >&2; exit 1; }
echo "SONAME: $asked"
