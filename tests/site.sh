#!/bin/sh
# Runs the program on each stored input, tests/site/NAME.in, and compares what it prints with NAME.out, which the second program printed. Then inputs that come
# in parts, that are closed, and that go on for ever, and an output that takes nothing.
# Exit status: 0 all the same; 1 a difference; 2 the program is not there.
set -eu
cd "$(dirname "$0")/.."
. tools/kit.sh
site=crates/site/out/site
[ -x "$site" ] || die "no $site: run './site' first"

room=$(mktemp -d)
trap 'rm -rf "$room"' EXIT
count=0

expect() { # NAME FILE: what was printed is that file
    cmp "$2" "$room/printed" >&2 || {
        echo "site: prints something else for $1:"
        cat "$room/printed"
        exit 1
    }
    count=$((count + 1))
}

for file in tests/site/*.in; do
    "$site" <"$file" >"$room/printed"
    expect "$file" "${file%.in}.out"
done

# A description that comes in three parts, one of them a single byte.
file=tests/site/example.in
{
    head -c 5 "$file"
    sleep 0.2
    head -c 6 "$file" | tail -c 1
    sleep 0.2
    tail -c +7 "$file"
} | "$site" >"$room/printed"
expect "an input in parts" "${file%.in}.out"

# No input at all, and one that does not end.
echo input >"$room/input"
"$site" <&- >"$room/printed"
expect "a closed input" "$room/input"
yes | "$site" >"$room/printed"
expect "an input without an end" "$room/input"

# An answer that cannot be written is not lost in silence.
echo 'site: the answer could not be written' >"$room/unwritten"
"$site" <"$file" >/dev/full 2>"$room/printed"
expect "a full output" "$room/unwritten"

echo "site: $count inputs, no difference"
