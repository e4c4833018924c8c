#!/bin/sh
# Measures the product's calls beside plain C versions, and compares all that they answer: opening, closing, the search and the text calls. Opening, closing and the
# search stand beside two of them, by the product's method and by sweeps. Then it tells how the costs of closings and searches grow with the number of boards.
# It needs dist/, which 'make lib' fills; what it builds itself goes to target/bench/.
# Where code lies in memory can change a time by a third. So the program is linked sixteen times, with the code of all versions moved on by 240 bytes each time,
# which goes over a page of 4,096 bytes and over every multiple of 16 within 256. The times shown are averages over the sixteen. A ratio is the geometric mean of
# twelve of theirs, without the two lowest and the two highest; and a time in the tables of growth is the average of twelve.
# Exit status: 0 measured; 1 they answer or leave something else, or a sheet is not answered as its group says; 2 something could not be built.
set -eu

cd "$(dirname "$0")/.."
. tools/kit.sh
. bench/parts.sh

run_to() { # FILE PROGRAM WORDS...: what the program prints goes to the file
    to=$1
    shift
    "$@" >"$to" || {
        status=$?
        cat "$to" >&2
        exit "$status"
    }
}

compile_parts
rm -f "$built"/times-* "$built"/growth-*
shift=0
while [ "$shift" -lt 3840 ]; do
    link_bench "$built/bench-$shift" "$shift"
    run_to "$built/times-$shift" "$built/bench-$shift"
    run_to "$built/growth-$shift" "$built/bench-$shift" growth
    shift=$((shift + 240))
done
link_counting "$built/bench-counting"
run_to "$built/triples" "$built/bench-counting" triples

awk -v unit=' ns' -v places=1 -v digits=2 -v compared='every answer and all that is left is the same; ' -f bench/middle.awk -f bench/table.awk "$built"/times-*
awk -f bench/middle.awk -f bench/growth.awk "$built/triples" "$built"/growth-*
