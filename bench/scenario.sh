#!/bin/sh
# Times the reading and judging of a scenario of about 4 MB beside the reading of its JSON alone: 8 nodes, 8 channels of
# 1,024 rows, and 4,096 fault lines, every fourth with 1,350 bytes of its own. Each is timed in 15 processes by turns, since
# the program reads one scenario, and the least counts.
#
#   scenario.sh [PROGRAM]      another build of crates/bench_parts than `rt run` makes
set -eu
top=$(cd "$(dirname "$0")/.." && pwd)
work=$(mktemp -d)
trap 'rm -rf "$work"' EXIT

awk 'BEGIN {
    printf "{\"nodes\":8,\"m\":2,\"periods\":1024,\"policy\":{\"weights\":[5,5,5,1,5,5,5,5],\"exclude\":20,\"readmit\":4,\"credit\":1,\"streak\":4,\"cap\":40},\"channels\":["
    for (c = 0; c < 8; c++) {
        printf "%s{\"kind\":\"sensor\",\"delta\":10,\"readings\":[", (c ? "," : "")
        for (r = 0; r < 1024; r++) {
            printf "%s[", (r ? "," : "")
            for (i = 0; i < 8; i++) printf "%s%d%05d", (i ? "," : ""), 1000000 + 977 * r + c, (r + i) % 10
            printf "]"
        }
        printf "]}"
    }
    for (k = 0; k < 1350; k++) raw = raw "0f"
    printf "],\"faults\":["
    for (k = 0; k < 4096; k++) {
        p = int(k / 8); s = k % 8; from = (p + s) % 8
        effect = k % 4 == 0 ? "\"drop\"" : k % 4 == 1 ? "{\"cut\":3}" : k % 4 == 2 ? "{\"time\":25}" : "{\"raw\":\"" raw "\"}"
        printf "%s{\"from\":%d,\"to\":[%d],\"periods\":[%d,%d],\"slots\":[%d],\"effect\":%s}", (k ? "," : ""), from, (from + 1) % 8, 2 * p, 2 * p + 1, s, effect
    }
    print "]}"
}' >"$work/input.json"

program=${1:-$top/crates/bench_parts/out/bench_parts}
[ $# -gt 0 ] || (cd "$top/crates/bench_parts" && rt run </dev/null)

for _ in 1 2 3 4 5 6 7 8 9 10 11 12 13 14 15; do
    for word in json judged; do
        echo "$word $("$program" $word <"$work/input.json")"
    done
done | awk '
    $3 != "us" { print "not read: " $0; exit 1 }
    !($1 in least) || $2 < least[$1] { least[$1] = $2 }
    END {
        if (least["json"])
            printf "JSON alone %d us, read and judged %d us: %.2f times\n", least["json"], least["judged"], least["judged"] / least["json"]
    }'
