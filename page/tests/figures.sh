#!/bin/sh
# `make page-rate`: the figures of the page, and the time of `make page-test`; on a host that does nothing else.
set -eu
cd "$(dirname "$0")/../.."
PYTHONPATH=python
export PYTHONPATH
node page/tests/figures.mjs build/page/lc3.html build/fanthrig.wasm
begun=$(date +%s)
page/tests/run.sh >build/page-test.log 2>&1 || { tail -n 40 build/page-test.log; exit 1; }
echo "page-test: $(($(date +%s) - begun)) s; all that it says is in build/page-test.log"
