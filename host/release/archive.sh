#!/bin/sh
# The binary archive in a folder with a space in its name: command, module, C and Rust. Nothing is built by the kit.
set -eu
. host/release/support.sh

PATH=$(without_kit)
! command -v rt >/dev/null || fail "the kit is still on the PATH"
work="$(mktemp -d)/a folder"
trap 'rm -rf "${work%/*}"' EXIT
mkdir "$work"
cd "$work"
tar -xzf "$dist/$binary.tar.gz"
there=$work/$binary

greeting=$there/share/doc/fanthrig/examples/hello.obj
same "$(env -i PATH="$PATH" "$there/bin/lc3" run "$greeting" </dev/null 2>/dev/null)" "$hello" "lc3 run"
same "$(env -i PATH="$PATH" "$there/bin/lc3" page)" "$there/share/fanthrig/lc3.html" "lc3 page"
same "$(env -i PATH="$PATH" PYTHONPATH="$there/lib/python3/dist-packages" \
    python3 -c 'import fanthrig; print(fanthrig.__version__, fanthrig.line(0xF025))')" "$version TRAP x25" "the module"

line_program >line.c
export PKG_CONFIG_PATH="$there/lib/pkgconfig"
same "$(pkg-config --modversion fanthrig)" "$version" "the version that pkg-config tells"
# pkg-config writes the space as the shell reads it.
eval "gcc -Wall -Werror line.c $(pkg-config --cflags --libs fanthrig) -o shared"
same "$(LD_LIBRARY_PATH="$there/lib" ./shared)" "$lined" "a program linked with the shared library"
gcc -Wall -Werror "-I$there/include" line.c "$there/lib/libfanthrig.a" -o static
same "$(./static)" "$lined" "a program linked with the archive"

# The crates of the source archive, with the library of the binary archive.
tar -xzf "$dist/fanthrig-$version.tar.gz"
crates="$work/fanthrig-$version/host"
example() { cargo run --quiet --offline --manifest-path "$crates/Cargo.toml" --target-dir "$1" --example log; }
FANTHRIG_LIB_DIR="$there/lib" example by-folder | diff "$crates/examples/log.txt" -
example by-pkg-config | diff "$crates/examples/log.txt" -
# Packed as crates, and built from there.
FANTHRIG_LIB_DIR="$there/lib" cargo package --quiet --workspace --offline --allow-dirty \
    --manifest-path "$crates/Cargo.toml" --target-dir packed
for crate in fanthrig-sys fanthrig; do
    [ -e "packed/package/$crate-$version.crate" ] || fail "no package of the crate $crate"
done
