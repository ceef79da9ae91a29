#!/bin/sh
# The Debian packages in a fresh Debian: command, manual page, pkg-config, a program in C; beside Debian's liblc3, whose
# names they once had; and removed without a trace.
#
#   DEBIAN_MIRROR   where Debian is taken from   http://deb.debian.org/debian
set -eu
. host/release/support.sh

[ "$(id -u)" = 0 ] || fail "a fresh Debian needs root"
# In memory where there is room for it and programs may run there: dpkg waits for the disk after every file.
free=$(df --output=avail -k /dev/shm 2>/dev/null | tail -n 1)
case ,$(findmnt -no OPTIONS /dev/shm | head -n 1), in
,, | *,noexec,* | *,nodev,*) ;;
*) [ "${free:-0}" -lt 2000000 ] || export TMPDIR=/dev/shm ;;
esac
place=$(mktemp -d)
trap 'rm -rf "$place"' EXIT
fresh_debian() {
    rm -rf "$place" && mkdir "$place"
    debootstrap --variant=minbase --include=python3,gcc,libc6-dev,pkgconf,man-db bookworm "$place" \
        "${DEBIAN_MIRROR:-http://deb.debian.org/debian}" >build/debootstrap.log 2>&1
}
# A mirror may fail for a while.
fresh_debian || { sleep 10 && fresh_debian; } || { sleep 60 && fresh_debian; } ||
    { tail -n 5 build/debootstrap.log >&2; fail "no fresh Debian: see build/debootstrap.log"; }

mkdir "$place/release"
cp "$dist"/*.deb "$place/release"
line_program >"$place/release/line.c"
cp host/release/beside.c "$place/release"
cp host/release/inside.sh "$place/release"
env -i PATH=/usr/sbin:/usr/bin:/sbin:/bin LC_ALL=C.UTF-8 DEBIAN_FRONTEND=noninteractive \
    HELLO="$hello" LINED="$lined" VERSION="$version" INTERFACE="$interface" \
    chroot "$place" sh /release/inside.sh
