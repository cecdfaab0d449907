#!/usr/bin/env bash
# Prints wall time, output rate and peak memory of a large replay: 8 nodes, m = 0, 1,024 periods, 448 silent lines.
set -eu
top=$(cd "$(dirname "$0")/.." && pwd)
work=$(mktemp -d)
trap 'rm -rf "$work"' EXIT

# 448 lines of at most four periods each, from nodes 5, 6 and 7 in turn
awk 'BEGIN {
    printf "{\"nodes\":8,\"m\":0,\"periods\":1024,\"policy\":{\"weights\":[5,5,5,5,5,5,5,5],\"exclude\":20,\"readmit\":4,\"credit\":1,\"streak\":2,\"cap\":100},\"faults\":["
    for (k = 0; k < 448; k++) {
        first = int(k * 1024 / 448); last = first + k % 4; if (last > 1023) last = 1023
        printf "%s{\"from\":%d,\"to\":\"all\",\"periods\":[%d,%d],\"slots\":\"all\",\"effect\":\"drop\"}", (k ? "," : ""), 5 + k % 3, first, last
    }
    print "]}"
}' >"$work/input.json"

"$top/maft" replay <"$work/input.json" >"$work/output.txt"
if command -v /usr/bin/time >/dev/null 2>&1; then
    /usr/bin/time -v "$top/maft" replay <"$work/input.json" 2>"$work/time.txt" >"$work/output.txt"
    awk '/Maximum resident/ { printf "peak memory: %.1f MB\n", $NF / 1024 }' "$work/time.txt"
fi
bytes=$(wc -c <"$work/output.txt")
best=
for _ in 1 2 3 4 5; do
    begin=$(date +%s%N)
    "$top/maft" replay <"$work/input.json" >"$work/output.txt"
    took=$(($(date +%s%N) - begin))
    if [ -z "$best" ] || [ "$took" -lt "$best" ]; then best=$took; fi
done
awk -v ns="$best" -v bytes="$bytes" 'BEGIN { printf "wall time, best of 5, with the launcher: %.3f s\noutput: %d bytes, %.1f MB/s\n", ns / 1e9, bytes, bytes * 1000 / ns }'
