#!/bin/sh
# Makes a release twice, compares the two, and installs each of its archives where there is no source tree and no kit.
#
#   RELEASE_PARTS   which parts   same needs wheel archive debian
set -eu
cd "$(dirname "$0")/../.."
. host/release/support.sh

PYTHONPATH=tools python3 -m release
for part in ${RELEASE_PARTS:-same needs wheel archive debian}; do
    started=$(date +%s)
    "host/release/$part.sh"
    echo "release, $part: as it should be ($(($(date +%s) - started)) s)"
done
