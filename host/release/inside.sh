#!/bin/sh
# What host/release/debian.sh does inside the fresh Debian.
# The packages, and what pkg-config says, are lists of words.
# shellcheck disable=SC2046,SC2086
set -eu
cd /release

fail() { echo "inside.sh: $*" >&2; exit 1; }
same() { [ "$1" = "$2" ] || fail "$3: '$1', not '$2'"; }
# All files but those in which dpkg, apt, man and ldconfig keep what they know.
files() {
    find / -xdev \( -path /proc -o -path /release -o -path /tmp -o -path /var/log -o -path /var/cache \
        -o -path /var/lib/dpkg -o -path /var/lib/apt \) -prune -o -print | sort
}
quietly() { "$@" >said 2>&1 || { cat said >&2; fail "$*"; }; }
ours="libfanthrig$INTERFACE libfanthrig-dev python3-fanthrig fanthrig-tools"

files >before
quietly dpkg --install ./*.deb
! command -v rt >/dev/null || fail "there is a kit"
same "$(lc3 run /usr/share/doc/fanthrig-tools/examples/hello.obj </dev/null 2>/dev/null)" "$HELLO" "lc3 run"
same "$(lc3 page)" /usr/share/fanthrig/lc3.html "lc3 page"
lc3 --version | grep -qw "$VERSION" || fail "lc3 --version does not tell $VERSION"
same "$(python3 -c 'import fanthrig; print(fanthrig.__version__)')" "$VERSION" "the module"
man lc3 | grep -q 'run, list, make, log, debug and mark programs' || fail "man lc3"
man lc3-debug | grep -q 'step through' || fail "man lc3-debug"
man lc3-mark | grep -q 'cases and results of lc3 mark' || fail "man lc3-mark"
same "$(pkg-config --modversion fanthrig)" "$VERSION" "the version that pkg-config tells"
gcc line.c $(pkg-config --cflags --libs fanthrig) -o line
same "$(./line)" "$LINED" "a program in C"
same "$(bash -c '. /usr/share/bash-completion/completions/lc3
    COMP_WORDS=(lc3 r) COMP_CWORD=1; _lc3 lc3; COMP_WORDS=(lc3 run --reg) COMP_CWORD=2; echo "${COMPREPLY[*]}"
    _lc3 lc3; echo "${COMPREPLY[*]}"')" "run
--registers" "the completion of commands and options"

# Beside Debian's liblc3: no common file, no common name that a linker sees, and one program with both.
quietly apt-get install --option Acquire::Retries=5 --yes --no-install-recommends liblc3-dev
files_of() { dpkg --listfiles "$@" | while read -r file; do [ -d "$file" ] || echo "$file"; done | sort -u; }
files_of $ours >our-files
files_of liblc3-dev $(dpkg-query -W -f '${Depends}' liblc3-dev | sed 's/ .*//') >their-files
same "$(comm -12 our-files their-files)" "" "files of both"
symbols() { nm "$@" | sed -n 's/.* [A-TV-Z] //p' | sort -u; }
libraries=/usr/lib/x86_64-linux-gnu
{ symbols -D $libraries/libfanthrig.so && symbols $libraries/libfanthrig.a; } | sort -u >our-names
symbols -D $libraries/liblc3.so >their-names
if [ ! -s our-names ] || [ ! -s their-names ]; then fail "no names to compare"; fi
same "$(comm -12 our-names their-names)" "" "names of both"
gcc -Wall -Werror beside.c $(pkg-config --cflags --libs fanthrig lc3) -o beside
same "$(./beside)" "$INTERFACE 480" "a program with both"

quietly apt-get purge --yes --autoremove $ours liblc3-dev
files | diff before - || fail "the packages leave something"
