# The head of the scripts under tests/: the top of the checkout, a folder to work in, the program, and the counts.
# A script begins with `. "${BASH_SOURCE[0]%/*}/lib/head.sh"`, and ends with `finish`.
# shellcheck shell=bash
set -u
name=tests/$(basename "$0")
top=$(cd "$(dirname "${BASH_SOURCE[0]}")/../.." && pwd) || exit 2
work=$(mktemp -d) || exit 2
trap 'rm -rf "$work"' EXIT
passed=0
failed=0

# what can't be tried on this machine is said, and is no failure
skip() {
    echo "$name: skipped, $*"
    exit 0
}

# the program that is tried: the given one, or what the gate built
take_program() {
    program=${1:-$top/crates/maft/out/maft}
    case $program in /*) ;; *) program=$PWD/$program ;; esac
    if [ ! -x "$program" ]; then
        echo "$name: the program is not built: $program" >&2
        exit 2
    fi
}

pass() { passed=$((passed + 1)); }

refuse() {
    failed=$((failed + 1))
    echo "$*"
}

# the last line, and the status: something was tried, and nothing failed
finish() {
    echo "$passed passed, $failed failed"
    [ "$failed" = 0 ] && [ "$passed" != 0 ]
    exit
}
