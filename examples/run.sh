#!/bin/sh
# The demonstration of `make run`: the command lc3 on the programs beside this file. The library is in build/.
set -eu
cd "$(dirname "$0")/.."
PYTHONPATH=python
export PYTHONPATH

lc3() { python3 -m fanthrig "$@"; }

show() { # TITLE COMMAND: says what follows, obeys a line as if it had been typed, and tells an exit code other than 0
    printf '\n%s\n\n$ %s\n' "$1" "$2"
    eval "$2" 2>&1 || printf '(exit code %d)\n' "$?"
}

log() { # NAME OPTION..: keeps the log of a run; how the run ended is told in it
    name=$1
    shift
    lc3 log "$@" </dev/null >"$work/$name" 2>/dev/null || [ -s "$work/$name" ]
}

work=$(mktemp -d)
trap 'rm -rf "$work"' EXIT

show "A greeting." "lc3 run examples/hello.obj </dev/null"
show "Its words." "lc3 list examples/hello.obj | head -n 4"
show "What is typed is shown, up to a full stop." "lc3 run examples/echo.obj <examples/echo.keys"
show "The primes below 100." "lc3 run examples/sieve.obj </dev/null"
show "Two tasks that never give way take turns by the timer." \
    "lc3 run --supervisor --anywhere examples/tasks.obj </dev/null"
show "A candidate's program reaches for the examiner's answers." \
    "lc3 run --with examples/examiner.obj examples/answers.obj </dev/null"
show "The access exception has stopped it." \
    "lc3 log --last 3 --with examples/examiner.obj examples/answers.obj </dev/null"

log with --with examples/examiner.obj examples/answers.obj
log without examples/answers.obj
cmp "$work/with" "$work/without"
printf '\nWith the answers in memory and without them, all %d lines of the log are the same.\n' \
    "$(wc -l <"$work/with")"
