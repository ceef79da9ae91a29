#!/bin/sh
# What the library asks of a system: no symbol that came after the glibc that the packages name, no library but the C
# library, no instruction that an early x86-64 processor lacks; and what it offers: names that begin with lc3_ alone.
set -eu
. host/release/support.sh

library=build/libfanthrig.so.$interface
glibc=$(PYTHONPATH=tools python3 -c 'import release; print("%d.%d" % release.GLIBC)')
newest=$(objdump -T "$library" | sed -n 's/.*GLIBC_\([0-9.]*\).*/\1/p' | sort -V | tail -n 1)
same "2.$(echo "$newest" | cut -d. -f2)" "$glibc" "the oldest glibc that will do"
# The tag of the wheel is that of auditwheel's oldest policy that has this glibc: 2.5, 2.12 or 2.17.
case $(PYTHONPATH=tools python3 -c 'from release import wheel; print(wheel.TAG)') in
*-manylinux_2_17_x86_64.manylinux2014_x86_64) [ "${glibc#2.}" -gt 12 ] && [ "${glibc#2.}" -le 17 ] ;;
*) false ;;
esac || fail "the tag of the wheel does not go with glibc $glibc"
same "$(readelf -d "$library" | sed -n 's/.*(NEEDED).*\[\(.*\)\]/\1/p')" libc.so.6 "the libraries needed"
others=$(nm -D --defined-only "$library" | sed 's/.* //' | grep -v '^lc3_' || true)
same "$others" "" "names that do not begin with lc3_"
late='%[yz]mm|\b(mulx|andn|bextr|sarx|shlx|shrx|popcnt|lzcnt|tzcnt)\b'
if objdump -d --no-show-raw-insn "$library" | grep -qE "$late"; then
    fail "the library has instructions that an early x86-64 processor lacks"
fi
lintian --fail-on error --suppress-tags initial-upload-closes-no-bugs --allow-root "$dist"/*.deb
