# What the parts share. They are called at the root of the source tree, after `make dist`.
# shellcheck shell=sh

root=$(pwd)
dist=$root/build/dist
version=$(cat VERSION)
interface=$(sed -n 's/^#define LC3_VERSION //p' include/fanthrig/lc3.h)
binary=fanthrig-$version-x86_64-linux

fail() { echo "${0##*/}: $*" >&2; exit 1; }

# same TEXT TEXT WHAT: fails where two texts differ.
same() { [ "$1" = "$2" ] || fail "$3: '$1', not '$2'"; }

# The PATH without folders that have the kit's command.
without_kit() {
    printf '%s\n' "$PATH" | tr : '\n' | while read -r folder; do
        [ -e "$folder/rt" ] || printf '%s:' "$folder"
    done | sed 's/:$//'
}

# What lc3 shows of the first example.
hello="Hello, world!
Halted"

# A program in C that uses a call of the library.
line_program() {
    cat <<'END'
#include <fanthrig/lc3.h>
#include <stdio.h>

int main(void) {
    uint8_t line[LC3_MAX_LINE];
    lc3_counted counted = lc3_line(0x14E7, line, sizeof line);
    printf("%u %.*s", (unsigned)lc3_version(), (int)counted.count, (char *)line);
    return lc3_version() == LC3_VERSION ? 0 : 1;
}
END
}
lined="$interface ADD R2, R3, #7"
