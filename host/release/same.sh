#!/bin/sh
# A release made again, in another zone and language, by one whose files nobody else may read and whose git writes
# other modes and other ends of lines, has the same bytes.
set -eu
. host/release/support.sh

again=$(mktemp -d "$root/build/again.XXXXXX")
trap 'rm -rf "$again"' EXIT
(
    umask 077
    export GIT_CONFIG_COUNT=2 GIT_CONFIG_KEY_0=tar.umask GIT_CONFIG_VALUE_0=user
    export GIT_CONFIG_KEY_1=core.autocrlf GIT_CONFIG_VALUE_1=true
    TZ=Pacific/Auckland LC_ALL=C PYTHONHASHSEED=1 PYTHONPATH=tools python3 -m release "$again" >/dev/null
)
diff -r "$dist" "$again" || fail "two releases of one commit differ"
(cd "$dist" && sha256sum --quiet -c SHA256SUMS)
same "$(cd "$dist" && find . -type f | sed 's|^\./||' | grep -v SHA256SUMS | LC_ALL=C sort)" \
    "$(sed 's/^[^ ]*  //' "$dist/SHA256SUMS" | LC_ALL=C sort)" "the files that have sums"
