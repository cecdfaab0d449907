#!/usr/bin/env bash
# Runs the program, and the launcher that starts it, on real devices that fail.
#
#   tests/devices.sh [PROGRAM]
#
# The input is closed, or a folder; the output is closed, a full device, or a pipe whose reader goes away; the stack is small. The status is
# 5 or 6, of which the launcher says what it means. The launcher is run as a copy beside a copy of the program, so that it builds
# nothing. PROGRAM is by default what the gate built. The last line is 'N passed, M failed'.
. "${BASH_SOURCE[0]%/*}/lib/head.sh"
take_program "$@"
mkdir -p "$work/crates/maft/out" && : >"$work/crates.txt" && cp -r "$top/maft" "$top/launcher" "$work" && cp "$program" "$work/crates/maft/out/maft" || exit 2
small=$top/tests/cases/smallest/stdin
long=$top/tests/cases/long_run/stdin

# one run that is over: its name, its status, the one that is wanted, and a word of what the launcher must say
judge() {
    if [ "$2" = "$3" ] && { [ -z "$4" ] || grep -q "$4" "$work/noise"; }; then pass; else
        refuse "$1: status $2, wanted $3; $(head -n 1 "$work/noise")"
    fi
}

# what a run without an input must not do
silent() { if [ -s "$work/out" ]; then refuse "$1: something was written"; else pass; fi; }

# all devices under one command: its name, what it must say of a failed read and of a failed write, and the command
devices() {
    local what=$1 unread=$2 unwritten=$3 run=$4
    "$run" replay <&- >"$work/out" 2>"$work/noise"
    judge "$what, a closed input" $? 5 "$unread"
    silent "$what, a closed input"
    "$run" replay <"$work" >"$work/out" 2>"$work/noise"
    judge "$what, a folder as input" $? 5 "$unread"
    silent "$what, a folder as input"
    "$run" replay <"$small" >&- 2>"$work/noise"
    judge "$what, a closed output" $? 6 "$unwritten"
    if [ -e /dev/full ]; then
        "$run" replay <"$small" >/dev/full 2>"$work/noise"
        judge "$what, a full device" $? 6 "$unwritten"
    fi
    { trap '' PIPE; "$run" replay <"$long" 2>"$work/noise"; echo $? >"$work/status"; } | head -c 10 >/dev/null
    judge "$what, a pipe whose reader goes away" "$(cat "$work/status")" 6 "$unwritten"
}

devices "the program" "" "" "$program"
(ulimit -s 512 && exec "$program" replay <"$top/scenarios/sixteen_nodes.json") >"$work/out" 2>"$work/noise"
judge "the program, a stack of 512 kilobytes" $? 0 ""
if cmp -s "$work/out" "$top/scenarios/sixteen_nodes.txt"; then pass; else refuse "a stack of 512 kilobytes: the text is another"; fi
devices "the launcher" "could not be read" "could not be written" "$work/maft"
finish
