#!/bin/sh
# Prints how long it takes to write and to read the longest relay frame of eight nodes, beside a copy of its bytes.
set -e
cd "$(dirname "$0")/../crates/bench_parts"
rt run </dev/null
out/bench_parts frames
