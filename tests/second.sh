#!/bin/sh
# What is stored is what the second program makes and answers: the cases of crates/cases with their answers, and the inputs of the program.
# Exit status: 0 all the same; 1 a difference.
set -eu
cd "$(dirname "$0")/.."
sh tools/second.sh

room=$(mktemp -d)
trap 'rm -rf "$room"' EXIT

target/second store >"$room/cases"
cmp crates/cases/stdin "$room/cases"
target/second answer <crates/cases/stdin >"$room/answers"
cmp crates/cases/stdout "$room/answers"
target/second inputs "$room/site"
diff -r tests/site "$room/site"
target/second tally <crates/cases/stdin
