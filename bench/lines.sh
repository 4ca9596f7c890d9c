#!/bin/sh
# How many form lines a second the program `areas` answers, from a file to nowhere: the best of five runs over a million lines of each kind.
set -eu
root=$(cd "$(dirname "$0")/.." && pwd)
cd "$root"
(cd crates/areas && rt run </dev/null >&2)
lines=$(mktemp)
trap 'rm -f "$lines"' EXIT

# A name, and the lines, which are repeated until there are a million.
timed() {
    printf "$2" | awk -v many=1000000 '{ line[NR] = $0 } END { for (i = 0; i < many; i++) print line[i % NR + 1] }' > "$lines"
    best=0
    for run in 1 2 3 4 5; do
        before=$(date +%s%N)
        crates/areas/out/areas < "$lines" > /dev/null
        after=$(date +%s%N)
        rate=$((1000000000000000 / (after - before)))
        if [ "$rate" -gt "$best" ]; then best=$rate; fi
    done
    printf '| %s | %s |\n' "$1" "$best"
}

echo '| lines | a second |'
echo '|---|---:|'
timed "the paper's five" '(tiles 00 01 02 03)\n(minus (tiles 0) (tiles 012))\n(both (tiles 1) (tiles 0))\n(plus (tiles 0 1) (tiles 2 3))\n(tiles 4)\n'
timed 'one key of 18 digits' '(tiles 120210233102331021)\n'
timed 'three operations, keys of 12 digits' '(minus (plus (tiles 120210233102) (tiles 120210233103)) (both (tiles 1202102331) (tiles 120210233102)))\n'
timed 'refused by 15' '(tiles 0 )\n'
