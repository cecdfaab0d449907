# Proves every crate that the programs stand on, several side by side, and builds them. Part of `maft`; `./maft prove` runs it.
# It needs bash 5.1 or newer, whose `wait -n -p` tells which of several processes ended.
# shellcheck shell=bash
# shellcheck disable=SC2154

libraries=$built/proved
# from how many lines of code a crate is large
large=440
# by the number of the prover's process: which crate it proves, and by how many copies of itself
declare -A crate_of=() jobs_of=()

# finds the toolchain's folder, as its own word says, and what a proof and a build need of it
find_kit() {
    local part
    kit=$(rt doc 2>/dev/null) || kit=""
    kit=${kit%/*}
    for part in bin/rattle bin/rattle-link rlibs logic_built rattle/logic/antt-project.json toolchain c/libos_c.a c/liblibc_c.a; do
        [ -e "$kit/$part" ] || give_up "the toolchain has no $part where it says that it is; .ci/run proves and builds the program too"
    done
}

# whether a crate is one of the programs that are to be built
is_root() { case " ${roots[*]} " in *" $1 "*) ;; *) return 1 ;; esac; }

# Notes how many lines of code a crate has, and how many there are from it up to a program, by the longest way. The time of a proof
# goes by them: its definitions and written answers cost little, and each crate takes as long as sixty lines before its first function.
measure_way() {
    local other above=0
    [ -z "${way[$1]+noted}" ] || return 0
    size[$1]=$(find "$top/crates/$1/src" -name '*.rt' -exec cat {} + | wc -l)
    for other in "${!rows[@]}"; do
        case " ${rows[$other]#*:} " in
            *" $1 "*)
                measure_way "$other"
                if [ "${way[$other]}" -gt "$above" ]; then above=${way[$other]}; fi
                ;;
        esac
    done
    way[$1]=$((above + size[$1] + 60))
}

# Notes a sum of all that the proof of a crate reads: what the toolchain is, the crate's files, and the sums of the crates that it names.
sign() {
    local word below=() sources
    [ -z "${sum[$1]+noted}" ] || return 0
    for word in ${rows[$1]#*:}; do
        if [ -n "${rows[$word]+noted}" ]; then sign "$word"; below+=("${sum[$word]}"); fi
    done
    sum[$1]=$({ printf '%s\n' "$version" "${rows[$1]}" "${below[@]}"; sed -n "s|  crates/$1/|  |p" <<<"$sums_at_start" | sort; } | sha256sum)
    name_sources "$1"
    dates_of[$1]=$(list_dates "${sources[@]}")
}

# whether all crates that this one names are proved
is_ready() {
    local word
    for word in ${rows[$1]#*:}; do
        if [ -n "${rows[$word]+noted}" ] && [ -z "${proved[$word]+noted}" ]; then return 1; fi
    done
}

# whether a crate can be begun
can_begin() { [ -z "${begun[$1]+noted}" ] && is_ready "$1"; }

# Of the crates that can be begun, takes the one from which the longest way is left.
choose_next() {
    local crate
    next=""
    for crate in "${!rows[@]}"; do
        if ! can_begin "$crate"; then continue; fi
        if [ -z "$next" ] || [ "${way[$crate]}" -gt "${way[$next]}" ]; then next=$crate; fi
    done
    [ -n "$next" ]
}

# how many processes prove side by side: one a processor, as far as there are four gigabytes of free memory for each
count_lanes() {
    local memory
    lanes=$(nproc)
    memory=$(sed -n 's/^MemAvailable: *\([0-9]*\) kB$/\1/p' /proc/meminfo 2>/dev/null)
    if [ -n "$memory" ] && [ $((memory / 4194304)) -lt "$lanes" ]; then lanes=$((memory / 4194304)); fi
    if [ "$lanes" -lt 1 ]; then lanes=1; fi
}

# Says how many tenths of a processor a proof by so many processes keeps busy: they wait for one another.
weigh() {
    if [ "$1" = 1 ]; then load=10; else load=$((9 + 4 * $1)); fi
}

# Counts the tenths of processors that are left. There are twelve for each processor, since no proof keeps its own busy throughout.
count_left() {
    local run load
    left=$((12 * lanes))
    for run in "${!jobs_of[@]}"; do
        weigh "${jobs_of[$run]}"
        left=$((left - load))
    done
}

# whether another crate than this one can be begun
is_other_ready() {
    local crate
    for crate in "${!rows[@]}"; do
        if [ "$crate" != "$1" ] && can_begin "$crate"; then return 0; fi
    done
    return 1
}

# Chooses by how many processes a crate is proved, as far as processors are left: two where it is large, as many as there are
# processors where no other crate can be begun beside it, and else one. Several take less time, and more of the processors'.
choose_jobs() {
    local wanted=1 load
    if [ "${size[$1]}" -ge "$large" ]; then wanted=2; fi
    if ! is_other_ready "$1"; then wanted=$lanes; fi
    jobs=$wanted
    while weigh "$jobs" && [ "$jobs" -gt 1 ] && [ "$load" -gt "$left" ]; do jobs=$((jobs - 1)); done
}

# the words by which the toolchain proves a crate over the statements of those below it, and builds it
say_words() {
    local word
    words=(build --crate-name "$1")
    if is_root "$1"; then words+=(src/main.rt); else words+=(src/lib.rt); fi
    for word in std ${rows[$1]#*:}; do
        if [ -n "${rows[$word]+noted}" ]; then words+=(--extern "$word=$libraries/$word.rlib"); else words+=(--extern "$word=$kit/rlibs/$word.rlib"); fi
    done
    words+=(-L "dependency=$kit/rlibs" -L "dependency=$libraries" --antt-project "$kit/rattle/logic/antt-project.json" --logic-built "$kit/logic_built"
        --links "$1=" --jobs "$jobs")
    if is_root "$1"; then words+=(--toolchain "$kit/toolchain" --backend llvm -o "$room/$1.o"); else words+=(--statements -o "$libraries/$1.rlib"); fi
}

# the prover, from the crate's folder
run_prover() { cd "$top/crates/$crate" && exec "$kit/bin/rattle" "${words[@]}"; }

# Begins to prove a crate, in a process group of its own.
begin_crate() {
    local crate=$1 jobs words group
    choose_jobs "$crate"
    say_words "$crate"
    rm -f "$libraries/$crate.sum"
    begin_group run_prover </dev/null >"$room/$crate.log" 2>&1
    crate_of[$group]=$crate
    jobs_of[$group]=$jobs
    begun[$crate]=1
}

# Notes that a crate is proved, for this run, and for one after it where no file of it was changed meanwhile.
end_crate() {
    local sources
    cat "$room/$1.log" >>"$log"
    proved[$1]=1
    say "$1"
    name_sources "$1"
    if ! is_root "$1" && [ "$(list_dates "${sources[@]}")" = "${dates_of[$1]}" ]; then printf '%s\n' "${sum[$1]}" >"$libraries/$1.sum"; fi
}

# takes over the crates whose libraries an earlier run built of the same files
take_kept() {
    local crate
    for crate in "${!rows[@]}"; do
        sign "$crate"
        if ! is_root "$crate" && [ -d "$libraries/$crate.rlib" ] && [ "$(cat "$libraries/$crate.sum" 2>/dev/null)" = "${sum[$crate]}" ]; then
            begun[$crate]=1
            proved[$crate]=1
        fi
    done
}

# Proves each crate as soon as those that it names are proved, several side by side.
prove_crates() {
    local next run crate status left
    while :; do
        while count_left && [ "$left" -ge 10 ] && choose_next; do begin_crate "$next"; done
        if [ "${#crate_of[@]}" = 0 ]; then break; fi
        status=0
        wait -n -p run "${!crate_of[@]}" || status=$?
        crate=${crate_of[$run]}
        unset "crate_of[$run]" "jobs_of[$run]"
        end_group "$run"
        if [ "$status" != 0 ]; then
            cat "$room/$crate.log" >>"$log"
            return 1
        fi
        end_crate "$crate"
    done
    [ "${#proved[@]}" = "${#rows[@]}" ]
}

# links a program that the prover built
link() {
    "$kit/bin/rattle-link" --target x86_64-unknown-linux-gnu --toolchain "$kit/toolchain" -o "$room/$1" "$room/$1.o" "$kit/c/libos_c.a" "$kit/c/liblibc_c.a"
}

link_all() {
    local root
    for root in "${roots[@]}"; do link "$root" || return 1; done
}

# Proves every crate that the programs in `roots` stand on, and builds them: each over the statements of the crates below it, by the
# toolchain's prover. A line for each crate comes here. The libraries are kept, so that a run after this one proves what has changed
# alone.
prove() {
    local -A size=() way=() begun=() proved=() sum=() dates_of=()
    local crate kit lanes root
    [ $((BASH_VERSINFO[0] * 100 + BASH_VERSINFO[1])) -ge 501 ] || give_up "proving needs bash 5.1 or newer, and this is bash $BASH_VERSION"
    say "$why: all crates of ${roots[*]} are proved, and each program is built; from nothing this takes $takes"
    find_kit
    for root in "${roots[@]}"; do check_free "$built/$root"; done
    make_room "${roots[@]}"
    mkdir -p "$libraries" 2>/dev/null || give_up_writing
    for crate in "${!rows[@]}"; do measure_way "$crate"; done
    count_lanes
    take_kept
    { prove_crates && link_all >>"$log" 2>&1; } || give_up "the proof or the build failed; $log has the toolchain's words$(tell_disk 1048576)"
    for root in "${roots[@]}"; do keep "$room/$root" ".maft/$root" "$built/$root" "$root"; done
    end_build
}
