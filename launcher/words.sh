# What the launcher says: the forms of words, and in a sentence what a status and a rule mean. Part of `maft`.
# shellcheck shell=bash
# shellcheck disable=SC2154

# the forms of words, with an example of each
list_forms() {
    cat <<'FORMS'
  check           prints a line for each period:     ./maft check < scenarios/blamed_and_back.json
  replay          prints what every node believes:   ./maft replay < scenarios/blamed_and_back.json
  replay trace    the same, with each frame:         ./maft replay trace < scenarios/silent.json
  storm SEED      runs a large drawn scenario:       ./maft storm 7
  node I          replays the log of node I alone:   ./maft node 0 < tests/cases/log_without_frames/stdin
of another program, which judges many scenarios, one a line of its input or drawn from a number (tools/campaign):
  judge           writes rows of what came of each:  tr '\n' ' ' < scenarios/silent.json | ./maft judge
  judge draw SEED FIRST COUNT, judge show SEED INDEX   by a line of options (docs/FORMATS.md)
of a third, which is a node that is told one event a line (docs/LIVE.md):
  controller I    runs the controller of node I:     tools/cluster scenarios/silent.json
and of the launcher's own:
  prove           proves the programs, builds them:  ./maft prove
  test            runs the tests of what is built:   ./maft test
  which           prints the program that answers:   ./maft which; ./maft which judge
  help            prints this, as --help does:       ./maft help
  --version       says what is built of which sources, and whether it is proved
  -- WORDS        hands WORDS to the program, whatever they are
FORMS
}

print_help() {
    cat <<'HELP'
maft replays a scenario of a cluster of nodes, some of them faulty, and prints what every node believes.
The words are of one of these forms:
HELP
    list_forms
    printf '%s\n' "README.md has a first answer, and docs/FORMATS.md the words, statuses, scenarios and texts."
}

# which programs would answer, and of which sources; nothing is built for it
print_version() {
    local it
    for it in "${programs[@]}"; do turn_to "$it"; print_one_version; done
}

print_one_version() {
    local sums notes sources
    local -A rows=() row_of=()
    read_crates "$name"
    name_sources "${!rows[@]}"
    sums=$(list_sums "${sources[@]}" | sha256sum)
    printf '%s, sources %s\n' "$name" "${sums:0:16}"
    if take_proved; then printf '%s: proved' "$program"
    elif take_trial; then printf '%s: a trial build, not proved' "$program"
    else printf '%s\n' "$why"; return; fi
    case $program in "$top/$kept") notes=$built/$name ;; "$top/$gate") notes=$built/$gate_notes ;; *) notes=$built/$trial_notes ;; esac
    if [ -f "$notes.sums" ]; then printf ', by %s\n' "$(sed -n '2s/^toolchain //p' "$notes.sums")"; else printf '\n'; fi
}

# what is wrong with words that are none of the forms
usage() {
    case $#:${1-}:${2--}:${3--} in
        2:check:[!-]*:-) say "check reads from standard input: ./maft check < $2" ;;
        2:replay:[!-]*:-) say "replay reads from standard input: ./maft replay < $2" ;;
        3:replay:trace:[!-]*) say "replay trace reads from standard input: ./maft replay trace < $3" ;;
        3:node:[0-9]*:[!-]*) say "node $2 reads from standard input: ./maft node $2 < $3" ;;
        *) say "the words are none of these forms:"; list_forms >&2 ;;
    esac
}

# what a rule says, in words, of its place
rule() {
    case ${1-} in
        1) say "refused: a key is missing, unknown or of another type, or a number isn't whole" ;;
        2) if [ "$2" = 1 ]; then say "refused: version is 1 or 2"; else say "refused: nodes is from 3 to 8, in version 2 to 16"; fi ;;
        3) say "refused: m is from 0 to 2, in version 2 to 3, and below nodes" ;;
        4) case $2 in 0) say "refused: periods is from 1 to 1024" ;; 1) say "refused: frame is from 1 to 1024" ;; *) say "refused: order is a node" ;; esac ;;
        5) say "refused: a part of policy is out of range, or there aren't as many weights as kinds (8, in version 2 16)" ;;
        6) say "refused: channel $2 of channels: a number is out of range, a list hasn't one number for each node, or it is the ninth" ;;
        7) say "refused: channel $2 of channels: its starts, or the readings of a row (of a copy channel those of its task's nodes), differ by more than delta" ;;
        8) say "refused: task $2 of tasks: a list isn't ascending or in range, need, min, max or run is out of range, or it is the thirty-third" ;;
        9) say "refused: task $2 of tasks: it comes after itself" ;;
        10) say "refused: line $2 of faults: its nodes, periods or slots are out of range or not ascending, or its effect is" ;;
        11) say "refused: line $2 of faults: it shares a link, a period and a slot with a line before it" ;;
        12) say "refused: restart $2 of restarts: its node or period is out of range, or it isn't after the one before it" ;;
        13) say "refused: there are more than 4096 lines in faults" ;;
        15) say "refused: the input isn't an object with just scenario and frames, or an entry of frames isn't four numbers and a text" ;;
        16) say "refused: there is no such node" ;;
        17) say "refused: entry $2 of frames: a number is out of range, its text isn't hexadecimal, or it is out of order" ;;
        18) say "refused: clock: a number is out of range, an error is above epsilon, a row of drifts differs by more than drift, or a list hasn't one number for each node" ;;
        19) if [ "$2" = 4096 ]; then say "refused: there are more than 4096 entries in the clock's lies"; else
            say "refused: entry $2 of the clock's lies: a number is out of range, or its node is sound in one of its periods, or symmetric and lies to some nodes alone"; fi ;;
        *) say "refused by a rule of docs/FORMATS.md" ;;
    esac
}

# whether the beginning of a text is that of a log's object
is_log() { head -c 4096 | tr -d '[:space:]' | grep -q '^{"\(scenario\|frames\)":[{[]'; }

# Asks the program again by which rule it refuses the input, and says that in words.
tell_refusal() {
    local refusal=""
    if { : <&3; } 2>/dev/null; then
        if [ "$1" != node ] && is_log </dev/fd/3; then
            say "refused: the input is the log of one node, and no scenario; that of node 0 is replayed by: ./maft node 0 < LOG"
            return
        fi
        if [ -n "$program" ]; then refusal=$("$program" "$@" </dev/fd/3 3<&-) || true; fi
    fi
    # shellcheck disable=SC2086
    rule ${refusal#refused }
}

# what a status other than 0 and 4 means, in a sentence
explain() {
    case $1 in
        0 | 4) ;;
        1) say "the system did not give the program its words" ;;
        2) usage "${@:2}" ;;
        3) say "the input is no JSON text" ;;
        5) say "the input could not be read" ;;
        6) say "the output could not be written whole" ;;
        7) say "there was not enough memory; nothing was written" ;;
        8) say "the input is longer than 4,194,304 bytes" ;;
        126) say "the system could not run $program: it is cut short, or of another kind of machine" ;;
        127) say "the program could not begin: this processor is too old for it, or a library that it needs isn't there" ;;
        139) say "the program was ended by the system (signal 11); it needs 512 kilobytes of stack, see ulimit -s" ;;
        129 | 1[3-9]? | 2??) say "the program was ended by signal $(($1 - 128))" ;;
        *) say "the program ended with $1, which is none of its statuses" ;;
    esac
}
