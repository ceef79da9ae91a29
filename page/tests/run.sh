#!/bin/sh
# `make page-test`: fanthrig.wasm and the module over it against the reference simulator and the native library, and the
# page in real browsers. Where no browser is installed it says so and goes on.
set -eu
cd "$(dirname "$0")/../.."
PYTHONPATH=python
export PYTHONPATH
page=build/page/lc3.html
work=$(mktemp -d)
others= # what runs beside, which ends when this does
# shellcheck disable=SC2086
trap '[ -z "$others" ] || kill $others 2>/dev/null || true; rm -rf "$work"' EXIT

has() { command -v "$1" >/dev/null; }
missing() { echo "page-test: $1 not installed: the page was NOT tried in $2"; }

mkdir "$work/said"
names=
beside() { # NAME COMMAND...: begins something that runs beside; what it says is kept under its name
    name=$1
    shift
    "$@" >"$work/said/$name" 2>&1 &
    others="$others $!"
    names="$names $name"
}

all_beside() { # waits for what runs beside, and shows what each has said
    failed=
    for other in $others; do wait "$other" || failed=yes; done
    for name in $names; do cat "$work/said/$name"; done
    others=
    names=
    [ -z "$failed" ] || exit 1
}

in_chromium() { # the page over file:// and http and in hostile hands
    mkdir "$work/file" "$work/http" "$work/hostile"
    beside over-file node page/tests/page.mjs file $page "$work/file" --runs "$work/runs.txt"
    beside over-http node page/tests/page.mjs http $page "$work/http"
    beside in-hostile-hands node page/tests/hostile.mjs $page "$work/hostile"
}

in_browsers() { # the page in each browser that there is, all at once: what one waits for is another's time
    if has chromium && has chromedriver; then in_chromium; else missing "chromium or chromedriver is" Chromium; fi
    if has firefox-esr; then beside firefox node page/tests/firefox.mjs $page; else missing "firefox-esr is" Firefox; fi
    all_beside
}

page/tests/refused.sh
LC3_RUNS_IN=$work cargo test --quiet --offline --release --manifest-path host/Cargo.toml --target-dir build/cargo \
    --test page -- --ignored
node page/tests/header.mjs
node page/tests/guide.mjs
beside runs node page/tests/runs.mjs host/tests/reference/runs.txt "$work/runs.txt" "$work/longs.txt"
node page/tests/windows.mjs
python3 page/tests/native.py write "$work/answers.jsonl" 300
node page/tests/native.mjs --recordings "$work/recordings" "$work/answers.jsonl"
python3 page/tests/native.py read "$work/recordings"
all_beside
in_browsers
