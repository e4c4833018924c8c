#!/bin/sh
# fuzz.sh N SEED: makes N new cases from the seed, has the product and the second program answer them, and stops at the first difference: the case and both
# answers are printed, and the case is kept in target/difference.case.
# Exit status: 0 no difference; 1 a difference; 2 something could not be built.
set -eu
cd "$(dirname "$0")/.."
sh tools/second.sh
. tools/kit.sh
build_program cases
cd target
exec ./second fuzz "$1" "$2" ../crates/cases/out/cases
