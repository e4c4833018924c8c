#!/bin/sh
# All that is claimed, from nothing: what the documents name is compared with the tree; 'rt ci' proves every crate, tries the edits that must be refused and
# runs the programs over what is stored; then what it built is tried as users have it. The last line is the verdict over all, 'N passed, 0 failed'.
set -u
cd "$(dirname "$0")/.."
. tools/kit.sh

room=$(mktemp -d) || exit 2
trap 'rm -rf "$room"' EXIT
passed=0 failed=0

try() { # NAME COMMAND...
    name=$1
    shift
    if "$@"; then
        echo "test $name: passed"
        passed=$((passed + 1))
    else
        echo "test $name: FAILED"
        failed=$((failed + 1))
    fi
}

# This takes a second, so it comes first.
try "what the documents name" sh tests/statements.sh

# All that rt ci writes goes on at once, but for its last line, which is held back. The line that says what it comes to is kept too.
hold_last() {
    held=''
    : >"$room/ok"
    while IFS= read -r line; do
        [ -z "$held" ] || printf '%s\n' "$held"
        held=$line
        case $line in 'rt: ok'*) printf '%s\n' "$line" >>"$room/ok" ;; esac
    done
    printf '%s\n' "$held" >"$room/last"
}
there_is crates/*/out/rlib || : >"$room/none_before"
{ rt ci 2>&1; echo "$?" >"$room/status"; } | hold_last
verdict=$(cat "$room/last")
case $verdict in
[0-9]*' passed, '[0-9]*' failed')
    passed=$((passed + ${verdict%% passed,*}))
    verdict=${verdict##* passed, }
    failed=$((failed + ${verdict% failed}))
    ;;
*)
    printf '%s\n' "$verdict"
    failed=$((failed + 1))
    ;;
esac
if [ "$(cat "$room/status")" -ne 0 ]; then
    [ "$failed" -ne 0 ] || failed=1
    echo "$passed passed, $failed failed"
    exit 1
fi
[ ! -f "$room/none_before" ] || note_proved

# An edit that cannot be applied or read is bad: it fails nothing in rt ci and is not in its count, so it would be tried no more, and nobody would see it.
all_edits_tried() {
    case $(cat "$room/ok") in
    'rt: ok'*', '[0-9]*' bad'*) return 1 ;;
    'rt: ok'*) return 0 ;;
    *) return 1 ;;
    esac
}
try "every edit is tried" all_edits_tried

try "the library" make --no-print-directory lib

# No two of these write the same file, so they run side by side. What each writes is kept, and told in this order.
begin() { # NAME COMMAND...
    name=$1
    shift
    "$@" >"$room/$name" 2>&1 &
    echo "$! $name" >>"$room/begun"
}
ended() { # ID NAME
    wait "$1"
    status=$?
    cat "$room/$2"
    return "$status"
}
begin "the example in C" sh tests/c_example.sh
begin "the filters" sh tests/filters.sh
begin "the examples of sites" sh tests/examples.sh
begin "the program on stored inputs" sh tests/site.sh
begin "the second program's answers" sh tests/second.sh
while read -r id name; do
    try "$name" ended "$id" "$name"
done <"$room/begun"

echo "$passed passed, $failed failed"
[ "$failed" -eq 0 ]
