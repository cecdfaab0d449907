# Which sources a program is built of, and whether a build is of those that are here. Part of `maft`, which reads it.
#
# Of each build there are notes: NAME.sums has a row of the crates, one of the toolchain, and a sum of the program and of each source;
# NAME.dates has their dates and sizes at a time when they had these sums. A call looks at the dates first, and makes the sums where a
# date, a size or the list of files is another.
# shellcheck shell=bash
# shellcheck disable=SC2154

# Notes the rows of crates.txt of these crates and of those below them. A word of a row that has no folder here is a library of the
# toolchain.
declare -A rows=() row_of=()
read_crates() {
    local line
    rows=()
    row_of=()
    while IFS= read -r line || [ -n "$line" ]; do
        case $line in *"#"*) line=${line%%"#"*}; line=${line%"${line##*[! ]}"} ;; esac
        case $line in *:*) row_of[${line%%[ :]*}]=$line ;; esac
    done <"$top/crates.txt"
    for line; do take_crate "$line"; done
}

# the crates whose rows are noted, in the order of their names
name_crates() { mapfile -t crates < <(printf '%s\n' "${!rows[@]}" | LC_ALL=C sort); }

take_crate() {
    local word
    [ -z "${rows[$1]+noted}" ] || return 0
    rows[$1]=${row_of[$1]-}
    for word in ${rows[$1]#*:}; do
        if [ -d "$top/crates/$word" ]; then take_crate "$word"; fi
    done
}

# what a proof or a build reads of these crates, as paths from the top
name_sources() {
    local crate
    sources=(crates.txt)
    for crate; do sources+=("crates/$crate/src" "crates/$crate/specs" "crates/$crate/proofs"); done
}

# The dates (of the contents and of the file), sizes and names of all files below these paths. A path that isn't there has none.
list_dates() {
    (cd "$top" && find -L "$@" -type f -printf '%T@ %C@ %s %p\n' | LC_ALL=C sort) 2>/dev/null
}

# the sums and names of all files below these paths
list_sums() {
    (cd "$top" && find -L "$@" -type f -exec sha256sum {} + | LC_ALL=C sort) 2>/dev/null
}

# Notes what the sources of these programs are when their build begins.
note_start() {
    local crates
    read_crates "$@"
    name_crates
    name_sources "${crates[@]}"
    version=$(rt version 2>/dev/null)
    dates_at_start=$(list_dates "${sources[@]}")
    sums_at_start=$(list_sums "${sources[@]}")
}

# whether the sources are as they were when the build began
is_as_at_start() {
    [ "$(list_dates "${sources[@]}")" = "$dates_at_start" ] && [ "$(list_sums "${sources[@]}")" = "$sums_at_start" ]
}

# of the sums that were noted those of these crates, and of their rows
choose_sums() {
    local folders
    folders=$(printf '|crates/%s/' "$@")
    grep -E "^[0-9a-f]{64}  (crates\\.txt\$$folders)" <<<"$sums_at_start"
}

# Writes the sums of a program (a path from the top) and of what its crate stands on, of which both are known to be those of its build.
write_sums() {
    local notes=$2.sums crates
    local -A rows=() row_of=()
    read_crates "$3"
    name_crates
    { printf '%s\n' "crates ${crates[*]}" "toolchain $version" && { list_sums "$1"; choose_sums "${crates[@]}"; } | LC_ALL=C sort; } >"$notes.new" &&
        mv -fT "$notes.new" "$notes"
}

# Says in `why` which file isn't as noted.
name_difference() {
    local path
    path=$(LC_ALL=C comm -3 <(printf '%s\n' "$2") <(printf '%s\n' "$3") | sed 's/^\t*[0-9a-f]*  //' | LC_ALL=C sort -u | head -n 1)
    case $path in
        "$1") why="$top/$1 is cut short or changed since it was built" ;;
        *) why="$path isn't what $top/$1 was built of" ;;
    esac
}

# Keeps the dates for the next call. Where one is of the last two seconds, or of the future, a change after it might not be seen by it.
keep_dates() {
    local newer
    newer=$(cd "$top" && find -L "${@:3}" -type f -newerct '2 seconds ago' -print -quit 2>/dev/null)
    [ -z "$newer" ] || return 0
    { printf '%s\n' "$2" >"$1.new" && mv -fT "$1.new" "$1"; } 2>/dev/null || rm -f "$1.new"
}

# Whether this program (a path from the top) is there and whole, and the sources are those that it was built of, by the notes of this
# name; `why` says what isn't so.
is_of_these_sources() {
    local path=$1 notes=$built/$2 head noted dates sums sources
    [ -e "$top/$path" ] || return 1
    if [ ! -f "$top/$path" ]; then why="$top/$path is no file, but something else in its place"; return 1; fi
    noted=$(cat "$notes.sums" 2>/dev/null) || { why="it isn't known of which sources $top/$path was built"; return 1; }
    head=${noted%%$'\n'*}
    noted=${noted#*$'\n'*$'\n'}
    # shellcheck disable=SC2086
    name_sources ${head#crates}
    dates=$(list_dates "$path" "${sources[@]}")
    [ "$dates" != "$(cat "$notes.dates" 2>/dev/null)" ] || return 0
    sums=$(list_sums "$path" "${sources[@]}")
    if [ "$sums" != "$noted" ]; then name_difference "$path" "$noted" "$sums"; return 1; fi
    keep_dates "$notes.dates" "$dates" "$path" "${sources[@]}"
}

# whether this program is there, and no source is newer; this is asked where its sums aren't known
is_not_older() {
    local path=$1 newer magic=""
    [ -e "$top/$path" ] || return 1
    if [ ! -f "$top/$path" ]; then why="$top/$path is no file, but something else in its place"; return 1; fi
    IFS= LC_ALL=C read -r -N 4 magic <"$top/$path"
    if [ "$magic" != $'\x7fELF' ]; then why="$top/$path is cut short, or no program"; return 1; fi
    newer=$(cd "$top" && find crates crates.txt -name out -prune -o -type f -newer "$path" -print -quit 2>/dev/null) || return 1
    if [ -n "$newer" ]; then why="$top/$path is older than $newer"; return 1; fi
}
