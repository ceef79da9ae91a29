#!/bin/sh
# tools/wasm refuses modules that its argument does not cover: each of these is one of ours with a line put in.
set -eu
cd "$(dirname "$0")/../.."
kit=$(rt doc)
clang=$(dirname "$kit")/toolchain/bin/clang
work=$(mktemp -d)
trap 'rm -rf "$work"' EXIT

"$clang" --target=x86_64-unknown-linux-gnu --no-default-config -Xclang -disable-llvm-passes -x ir -S -emit-llvm \
    build/wasm/lc3_version.bc -o "$work/version.ll"

refused() { # LINE WHY: puts a line before the first return; the module must be refused for this reason
    awk -v line="  $1" '/^  ret / && !done { print line; done = 1 } { print }' "$work/version.ll" >"$work/altered.ll"
    ! tools/wasm "$work/out.wasm" "$work/altered.ll" >"$work/said" 2>&1 || { echo "refused.sh: taken: $1" >&2; exit 1; }
    grep -q "$2" "$work/said" || { echo "refused.sh: $1:" >&2; cat "$work/said" >&2; exit 1; }
}

refused '%odd = ptrtoint ptr null to i64' 'depends on the target'
refused '%odd = inttoptr i64 8 to ptr' 'depends on the target'
refused '%odd = or i32 1, 2' 'unknown instruction or'
refused '%odd = load { i8, ptr }, ptr null' 'a record that is not of numbers'
refused '%odd = load { ptr, i32 }, ptr null' 'a record that is not of numbers'
refused '%odd = load { i8, ptr, i64 }, ptr null' 'a record that is not of numbers'
refused '%odd = ptrtoaddr ptr null to i64' 'depends on the target'
refused '%odd = fadd double 1.0, 2.0' 'depends on the target'
echo 'declare void @puts(ptr)' >>"$work/version.ll"
refused 'call void @puts(ptr null)' 'declares more'

"$clang" --target=x86_64-unknown-linux-gnu --no-default-config -Xclang -disable-llvm-passes -x ir -S -emit-llvm \
    build/wasm/lc3_objects.bc -o "$work/objects.ll"

other_copy() { # OLD NEW: alters the library's copy, which asks by addresses; it must be refused then
    sed "/^define .*copy_bits::<i8>/,/^}/ s/$1/$2/" "$work/objects.ll" >"$work/altered.ll"
    ! cmp -s "$work/objects.ll" "$work/altered.ll" || { echo "refused.sh: no place: $1" >&2; exit 1; }
    ! tools/wasm "$work/out.wasm" "$work/altered.ll" >"$work/said" 2>&1 || { echo "refused.sh: taken: $2" >&2; exit 1; }
    grep -q 'depends on the target' "$work/said" || { echo "refused.sh: $2:" >&2; cat "$work/said" >&2; exit 1; }
}

other_copy ' = sub i64 \(%r[0-9]*\), \(%r[0-9]*\)$' ' = sub i64 \2, \1'
other_copy '\( = icmp ult i64 %r[0-9]*\), %r[0-9]*$' '\1, %a2'
other_copy '\(memmove.*(ptr %a1, ptr %a0, i64\) %r[0-9]*' '\1 %a2'
other_copy '\(memmove.*(ptr %a1, ptr\) %a0' '\1 %a1'
echo "modules with what is not allowed in them are refused"
