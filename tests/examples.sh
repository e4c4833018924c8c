#!/bin/sh
# Runs the program over each example and compares what it prints with what is stored. That each sheet makes the stored words is tried by tests/filters.sh.
# Exit status: 0 all agree; 1 something differs; 2 the program could not be built or run.
set -u

cd "$(dirname "$0")/.." || exit 2
count=0

differs() { printf 'examples: %s\n' "$*"; exit 1; }

./site <examples/panel.words >/dev/null || exit 2
for sheet in examples/*.sheet; do
    name=${sheet%.sheet}
    ./site <"$name.words" | cmp -s - "$name.expected" || differs "what is printed for $name.words is not $name.expected"
    count=$((count + 1))
done
printf 'examples: %s sites, each printed as expected\n' "$count"
