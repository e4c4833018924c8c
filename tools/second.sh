#!/bin/sh
# Builds the second program, target/second, from second/, where it is not there or older than its source. It is plain Rust: where there is no rustc, Debian's is
# installed with apt-get.
set -eu
cd "$(dirname "$0")/.."
if [ -x target/second ] && [ -z "$(find second -newer target/second)" ]; then
    exit 0
fi
PATH=$PATH:${CARGO_HOME:-${HOME:-}/.cargo}/bin
if ! command -v rustc >/dev/null 2>&1; then
    { apt-get update && apt-get install -y rustc; } >&2
fi
mkdir -p target
rustc --edition 2021 -O second/src/main.rs -o target/second
