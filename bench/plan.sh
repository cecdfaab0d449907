#!/bin/sh
# Times the making of fault plans and the look-ups in them.
set -e
cd "$(dirname "$0")/../crates/bench_parts"
rt run </dev/null
out/bench_parts plan
