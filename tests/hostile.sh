#!/usr/bin/env bash
# Runs the program under refused memory and failing calls, one request or call at a time.
#
#   tests/hostile.sh [PROGRAM [CASE..]]
#
# A CASE is a folder of tests/cases, or the word `pieces`; without one there are those at the end of this file, sixteen nodes, a storm and
# the pieces.
# Of each run below each request for memory is refused in turn, each read and each write fails in turn, and each of them moves one
# byte alone in turn. It does so by a small library that stands before the C library's calls (tests/lib/fail.c); where no C compiler is
# there, this says so and ends well; FAIL_LIBRARY names one that is compiled already. Refused memory must end with 7 and nothing written; what is asked for before the words are known
# may also end with 1 and nothing written, or change nothing. A failed read must end with 5 and nothing written, a failed write with 6 and a prefix of the text, and a short
# read or write with 0 and the whole text, which is a stored one. At last one case goes in pieces and into each room that is too small. The last line is 'N passed, M failed'.
. "${BASH_SOURCE[0]%/*}/lib/head.sh"
take_program "$@"
if [ -n "${FAIL_LIBRARY-}" ]; then cp "$FAIL_LIBRARY" "$work/fail.so" || exit 2; else
    compiler=$(command -v cc || command -v gcc || command -v clang) || skip "no C compiler is installed"
    "$compiler" -shared -fPIC -O1 -o "$work/fail.so" "$top/tests/lib/fail.c" -ldl 2>"$work/compiler" || skip "the library can't be compiled: $(head -n 1 "$work/compiler")"
fi
cases=$top/tests/cases

# the program with the library before it; the first word has settings of the library, with a space between two
run() {
    local input=$2 setting
    for setting in $1; do export "${setting?}"; done
    shift 2
    LD_PRELOAD=$work/fail.so exec "$program" "$@" <"$input" >"$work/out" 2>"$work/noise"
}

# whether a run ended as it must: the setting, the status, and how many requests for memory are for words
is_well() {
    case $1:$2 in
        FAIL_MEMORY=*:7 | FAIL_READ=*:5) [ ! -s "$work/out" ] ;;
        FAIL_MEMORY=*:1) [ ! -s "$work/out" ] && [ "${1#*=}" -le "$3" ] ;;
        FAIL_MEMORY=*:0) cmp -s "$work/out" "$work/whole" && [ "${1#*=}" -le "$3" ] ;;
        FAIL_WRITE=*:6) cmp -s -n "$(stat -c %s "$work/out")" "$work/out" "$work/whole" ;;
        SHORT_*:0) cmp -s "$work/out" "$work/whole" ;;
        *) false ;;
    esac
}

# one run under one setting: what it is called, the setting, the input, and the words
judge() {
    local what=$1 setting=$2 status
    shift 2
    (run "$setting" "$@") 2>/dev/null
    status=$?
    if is_well "$setting" "$status" "$for_words"; then pass; else refuse "$what, $setting: status $status, $(stat -c %s "$work/out") bytes"; fi
}

# all failures of one run: what it is called, the text that is wanted, the input, and the words
torment() {
    local what=$1 whole=$2 input=$3 before=$passed k memory reads writes
    shift 3
    cp "$whole" "$work/whole"
    # as many words that are no form: what they ask for is for words
    (run "CALLS=$work/calls" /dev/null "${@/*/-}") 2>/dev/null
    read -r for_words reads writes <"$work/calls"
    rm "$work/calls"
    if ! (run "CALLS=$work/calls" "$input" "$@") || ! cmp -s "$work/out" "$whole" || ! [ -s "$work/calls" ]; then
        refuse "$what: not the stored text"
        return
    fi
    read -r memory reads writes <"$work/calls"
    if [ "$writes" = 0 ] || { [ "$reads" = 0 ] && [ "$input" != /dev/null ]; }; then
        refuse "$what: $reads reads, $writes writes"
        return
    fi
    if [ "$memory" = 0 ]; then echo "$what: this build asks the C library for no memory, and none is refused"; fi
    for ((k = 1; k <= memory; k++)); do judge "$what" "FAIL_MEMORY=$k" "$input" "$@"; done
    for ((k = 1; k <= reads; k++)); do
        judge "$what" "FAIL_READ=$k" "$input" "$@"
        judge "$what" "SHORT_READ=$k" "$input" "$@"
    done
    for ((k = 1; k <= writes; k++)); do
        judge "$what" "FAIL_WRITE=$k" "$input" "$@"
        judge "$what" "SHORT_WRITE=$k" "$input" "$@"
    done
    echo "$what: $memory requests for memory, $reads reads, $writes writes; $((passed - before)) runs ended well"
}

# one run that must end with this status and the first so many bytes of the text in $work/whole: settings, status, bytes, input, words
ends() {
    local settings=$1 wanted=$2 bytes=$3 status
    shift 3
    (run "$settings" "$@") 2>/dev/null
    status=$?
    if [ "$status" = "$wanted" ] && [ "$(stat -c %s "$work/out")" = "$bytes" ] && cmp -s -n "$bytes" "$work/out" "$work/whole"; then pass
    else refuse "$settings, ${*:2}: status $status, $(stat -c %s "$work/out") bytes"; fi
}

# the smallest scenario in pieces of seven bytes, of which each fails in turn, also the one that finds the end; into room for each number
# of bytes below the text's, ten at a time, and for just the text; a refusal into room for three bytes; a storm, which reads nothing; and
# no words, where neither is asked
pieces() {
    local small=$cases/smallest cycle=$cases/three_tasks_in_a_cycle before=$passed size k
    cp "$small/stdout" "$work/whole"
    size=$(stat -c %s "$small/stdin")
    for ((k = 1; k <= (size + 6) / 7 + 1; k++)); do ends "READ_PIECE=7 FAIL_READ=$k" 5 0 "$small/stdin" replay; done
    size=$(stat -c %s "$work/whole")
    for ((k = 0; k < size; k++)); do ends "WRITE_PIECE=10 WRITE_ROOM=$k" 6 "$k" "$small/stdin" replay; done
    ends "WRITE_PIECE=10 WRITE_ROOM=$size" 0 "$size" "$small/stdin" replay
    ends "WRITE_PIECE=100 FAIL_WRITE=3" 6 200 "$small/stdin" replay
    cp "$cycle/stdout" "$work/whole"
    ends "WRITE_ROOM=3" 4 3 "$cycle/stdin" replay
    cp "$cases/storm_7/stdout" "$work/whole"
    ends "FAIL_READ=1" 0 "$(stat -c %s "$work/whole")" /dev/null storm 7
    ends "FAIL_READ=1 FAIL_WRITE=1" 2 0 "$small/stdin"
    echo "in pieces and into small rooms: $((passed - before)) runs ended well"
}

# a stored case under its own name
stored() {
    local words
    mapfile -t words <"$cases/$1/words"
    torment "${1//_/ }" "$cases/$1/stdout" "$cases/$1/stdin" "${words[@]}"
}

if [ "${2-}" = pieces ]; then pieces; finish; fi
if [ $# -gt 1 ]; then
    for what in "${@:2}"; do stored "$what"; done
    finish
fi
for what in smallest a_bit_of_everything log_of_a_joining_node copies_voted_in_their_group clocks_stand_before_the_frames long_run; do
    stored "$what"
done
torment "sixteen nodes" "$top/scenarios/sixteen_nodes.txt" "$top/scenarios/sixteen_nodes.json" replay
torment "a storm" "$cases/storm_7/stdout" /dev/null storm 7
pieces
finish
