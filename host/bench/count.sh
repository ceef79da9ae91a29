#!/bin/sh
# Counts the library's processor instructions per step and per call, which no load on the computer disturbs.
# Exits 1 where one takes more than its limit.
#
# `timer` is `count` with the timer on, at an interval of 1000 steps. `self` rewrites itself, `wander` goes through all
# pages, `last` stands among the device registers. `poll` and `show` wait for a device; `hello` and `echo` do so in the
# ready-made monitor. `echo` has a limit of its own, since the steps in which a key arrives or is loaded are ordinary
# ones.
#
# The run for long sittings has a limit for each program. On loops it is also to take at most one instruction more than
# the interpreter of expert.c, which keeps instructions as read too; that makes no steps that meet a device. A whole
# call of it has a limit by the number of steps: 1.05 of what it takes, or less.
#
# A call with n = 1 has a limit by lc3_run and lc3_run_second, and a lower one by lc3_step and lc3_step_second: they
# make a single step with no loop, on a record that is lent. What the caller does for the call is counted in all.
#
# The limits are those of today's kit, whose compiler clears each function's locals and leaves out passes that are known
# to go wrong: an instruction or two a step (docs/PERFORMANCE.md).
#
# The cost of starting and of the call itself is the same for any number of steps, so the
# difference between two lengths counts steps alone, and that between two numbers of calls, calls.
#
#   FANTHRIG_LIB_DIR   where libfanthrig.a is                               build
#   CC            C compiler                                      gcc
#   COUNT_LIMIT   instructions per step of the run                40
#   ECHO_LIMIT    for echo                                        46
#   LOG_LIMIT     for logged runs, by either edition               108
#   CALL_LIMIT    instructions of a call with n = 1               374
#   STEP_LIMIT    instructions of a single step by itself         276
set -eu
cd "$(dirname "$0")/../.."

limit=${COUNT_LIMIT:-40}
echo_limit=${ECHO_LIMIT:-46}
log_limit=${LOG_LIMIT:-108}
call_limit=${CALL_LIMIT:-374}
step_limit=${STEP_LIMIT:-276}
steps=20000
calls=1000
lib=${FANTHRIG_LIB_DIR:-build}/libfanthrig.a
cc=${CC:-gcc}
work=$(mktemp -d)
trap 'rm -rf "$work"' EXIT

# Each program with the limits of the run and of the long run, and where the expert's C makes it: `held`, if the long
# run is to take at most an instruction more, or `beside`.
cat >"$work/programs" <<END
count $limit 20 held
timer $limit 20
copy $limit 20 held
sieve $limit 20 held
self $limit 28 beside
calls $limit 36 beside
outs $limit 28 beside
wander $limit 44 beside
last $limit 20
poll $limit 20
show $limit 37
hello $limit 21
echo $echo_limit 28
END

# Numbers of steps, and the limit of a whole call of the long run with so many.
cat >"$work/whole" <<END
1 490
16 1171
100 4675
300 25670
1000 36683
END

[ -f "$lib" ] || { echo "host/bench/count.sh: no $lib" >&2; exit 2; }
command -v valgrind >/dev/null || { echo "host/bench/count.sh: no valgrind" >&2; exit 2; }

# -z now: what the loader does for the first call of a function is no part of a measurement.
$cc -std=c11 -O3 -Wall -Wextra -Werror -Wl,-z,now -Iinclude host/bench/count.c host/bench/plain.c \
    host/bench/tuned.c host/bench/expert.c "$lib" -o "$work/count"

# measurements: the lines that count.c is to read.
measurements() {
    while read -r program _ _ expert; do
        for engine in library long logged plain tuned ${expert:+expert}; do
            echo "$engine $program $steps 1"
            echo "$engine $program $((2 * steps)) 1"
        done
    done <"$work/programs"
    for program in count copy sieve; do
        echo "logged2 $program $steps 1"
        echo "logged2 $program $((2 * steps)) 1"
    done
    for engine in library second step step_second; do
        echo "$engine count 1 1"
        echo "$engine count 1 $((calls + 1))"
    done
    while read -r n _; do
        echo "long count $n 1"
        echo "long count $n $((calls + 1))"
    done <"$work/whole"
}

# One process makes all measurements; what callgrind tells of each is the name and the count of all its instructions.
measurements >"$work/wanted"
valgrind --tool=callgrind --callgrind-out-file="$work/out" "$work/count" <"$work/wanted" 2>"$work/log" ||
    { cat "$work/log" >&2; exit 2; }
sed -n -e 's/^desc: Trigger: Client Request: //p' -e 's/^totals: //p' "$work"/out.* | paste -d ' ' - - >"$work/counted"

# instructions ENGINE PROGRAM STEPS CALLS: all instructions of the measurement.
instructions() { sed -n "s/^$* //p" "$work/counted"; }

# per_step ENGINE PROGRAM: instructions per step, in hundredths.
per_step() {
    once=$(instructions "$1" "$2" $steps 1)
    twice=$(instructions "$1" "$2" $((2 * steps)) 1)
    echo $(((twice - once) * 100 / steps))
}

# per_call ENGINE STEPS: instructions of a call with so many steps, in hundredths.
per_call() {
    one=$(instructions "$1" count "$2" 1)
    more=$(instructions "$1" count "$2" $((calls + 1)))
    echo $(((more - one) * 100 / calls))
}

decimal() { printf '%d.%02d' $(($1 / 100)) $(($1 % 100)); }

# within LIMIT NUMBER NAME: names what is over its limit, which fails the script.
within() {
    [ "$2" -le "$1" ] && return
    verdict="$verdict  $3 over the limit"
    status=1
}

# count_program PROGRAM LIMIT LONG_LIMIT [held|beside]: a line of the table, held against the limits.
count_program() {
    library=$(per_step library "$1")
    long=$(per_step long "$1")
    logged=$(per_step logged "$1")
    expert=${4:+$(per_step expert "$1")}
    verdict=
    within $(($2 * 100)) "$library" library
    within $(($3 * 100)) "$long" long
    [ "${4-}" != held ] || within $((expert + 100)) "$long" 'long, by the expert,'
    within $((log_limit * 100)) "$logged" logged
    printf '%-7s library %6s   long %6s, limit %2d   logged %6s   plain C %6s   tuned C %6s   expert C %6s%s\n' "$1" \
        "$(decimal "$library")" "$(decimal "$long")" "$3" "$(decimal "$logged")" \
        "$(decimal "$(per_step plain "$1")")" "$(decimal "$(per_step tuned "$1")")" \
        "${expert:+$(decimal "$expert")}" "$verdict"
}

# count_call LIMIT ENGINE STEPS: what a call takes, held against its limit.
count_call() {
    taken=$(per_call "$2" "$3")
    within $(($1 * 100)) "$taken" "$2"
    printf '   %s %s' "$2" "$(decimal "$taken")"
}

status=0
echo "instructions per step, limit $limit, for echo $echo_limit, for logged runs $log_limit; the long run's limits" \
    "are beside it, and on count, copy and sieve also one above the expert's count"
while read -r program; do
    # $program is a list of words.
    # shellcheck disable=SC2086
    count_program $program
done <"$work/programs"
verdict=
printf 'instructions per step, logged by the second edition, limit %s:' "$log_limit"
for program in count copy sieve; do
    taken=$(per_step logged2 "$program")
    within $((log_limit * 100)) "$taken" "$program"
    printf '   %s %s' "$program" "$(decimal "$taken")"
done
printf '%s\n' "$verdict"
verdict=
printf 'instructions of a call with n = 1, limit %s:' "$call_limit"
for engine in library second; do count_call "$call_limit" $engine 1; done
printf '%s\n' "$verdict"
verdict=
printf 'instructions of a single step, limit %s:' "$step_limit"
for engine in step step_second; do count_call "$step_limit" $engine 1; done
printf '%s\n' "$verdict"
while read -r n whole_limit; do
    verdict=
    printf 'instructions of a call with n = %s, limit %s:' "$n" "$whole_limit"
    count_call "$whole_limit" long "$n"
    printf '%s\n' "$verdict"
done <"$work/whole"
exit $status
