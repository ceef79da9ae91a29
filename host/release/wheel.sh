#!/bin/sh
# The wheel in a fresh virtual environment, away from the source tree; and `pip install .` where the library is built.
set -eu
. host/release/support.sh

work=$(mktemp -d)
trap 'rm -rf "$work"' EXIT
python3 -m venv "$work/venv"
pip="$work/venv/bin/python -m pip --quiet --disable-pip-version-check"
# pip leaves folders that it has made.
files() { find "$work/venv" -name __pycache__ -prune -o ! -type d -print | LC_ALL=C sort; }
files >"$work/before"

$pip install --no-index "$dist"/fanthrig-*.whl
cd "$work"
lc3() { env -i PATH=/usr/bin:/bin "$work/venv/bin/lc3" "$@" </dev/null 2>/dev/null; }
same "$(lc3 run "$work/venv/share/doc/fanthrig/examples/hello.obj")" "$hello" "lc3 run"
same "$(lc3 page)" "$work/venv/share/fanthrig/lc3.html" "lc3 page"
lc3 --version | grep -qw "$version" || fail "lc3 --version does not tell $version"
told='import fanthrig, os; print(fanthrig.__version__, fanthrig.version(), os.path.dirname(fanthrig.__file__))'
same "$(env -i "$work/venv/bin/python" -c "$told")" \
    "$version $interface $(echo "$work"/venv/lib/python3*/site-packages/fanthrig)" "the module"
for page in man1/lc3.1 man1/lc3-debug.1 man5/lc3-mark.5; do
    [ -e "$work/venv/share/man/$page" ] || fail "no manual page $page"
done
$pip uninstall --yes fanthrig
files | diff "$work/before" - || fail "pip uninstall leaves something"

# The wheel that pip makes by itself is the same.
cd "$root"
$pip wheel --no-index --no-deps --wheel-dir "$work/made" .
cmp "$dist"/fanthrig-*.whl "$work"/made/fanthrig-*.whl
