#!/bin/sh
# Counts the instructions of the product's calls beside those of the plain C versions, on the average of a group's sheets. Neither the load of the machine nor
# where code lies in memory changes a count, so it compares two versions of the product where times are too near.
# It needs dist/, which 'make lib' fills, and valgrind, which is installed with apt-get where it is not there.
# Exit status: 0 counted; 2 something could not be built.
set -eu

cd "$(dirname "$0")/.."
. tools/kit.sh
. bench/parts.sh
if ! command -v valgrind >/dev/null 2>&1; then
    { apt-get update && apt-get install -y valgrind; } >&2
fi

compile_parts
program=$built/bench-0
link_bench "$program" 0
rm -f "$built"/counts*
# valgrind writes a file after each group's calls, numbered from 1: the product's of the first group, plain C's of it, those by sweeps if it has them, and so on.
valgrind -q --tool=callgrind --collect-atstart=no --toggle-collect=counted --dump-after=counted "--callgrind-out-file=$built/counts" \
    "$program" count >"$built/counted"

files=0
next_count() { # leaves in count what the next file counts
    files=$((files + 1))
    count=$(sed -n 's/^totals: //p' "$built/counts.$files")
}

while IFS= read -r line; do
    next_count
    product=$count
    next_count
    plain=$count
    sweeps=-
    if [ "${line##* }" -eq 3 ]; then
        next_count
        sweeps=$count
    fi
    awk -v line="${line% *}" -v product="$product" -v plain="$plain" -v sweeps="$sweeps" 'BEGIN {
        n = substr(line, 22)
        printf "%s %.1f %.1f ", line, product / n, plain / n
        if (sweeps == "-") printf "- %.6f - -\n", product / plain
        else printf "%.1f %.6f %.6f %.6f\n", sweeps / n, product / plain, sweeps / product, sweeps / plain
    }'
done <"$built/counted" >"$built/counts-of-groups"
awk -v places=0 -v digits=3 -f bench/middle.awk -f bench/table.awk "$built/counts-of-groups"
