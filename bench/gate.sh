#!/usr/bin/env bash
# Runs the gate from nothing (proofs, wrong bodies, tests and runs) and prints what it took, in minutes.
#
#   bench/gate.sh [CLONE]
#
# CLONE is by default this checkout. What the gate says goes to standard error, and its status is this script's; nothing is
# judged of the times.
set -u
cd "${1:-$(dirname "${BASH_SOURCE[0]}")/..}" || exit 2
TIMEFORMAT='%R %U %S'
exec 3>&2
anew=()
# a toolchain that keeps nothing between two runs has no such word
if rt help 2>&1 | grep -q -e '--anew'; then anew=(--anew); fi
spent=$({ time rt ci "${anew[@]}" >&3 2>&3; } 2>&1)
status=$?
awk '{ printf "%.1f minutes, %.1f processor minutes (%.1f of them in the kernel)\n", $1 / 60, ($2 + $3) / 60, $3 / 60 }' <<<"$spent"
exit $status
