#!/bin/sh
# Builds the filters ./words and ./text from the library of 'make lib', and runs them over the sheets of examples/ and over sheets and words that are refused,
# very long or very deep: what they write, what they say on standard error and where, and their exit status.
# Exit status: 0 all as expected; 1 something differs; 2 a program could not be built.
set -u
cd "$(dirname "$0")/.." || exit 2

room=$(mktemp -d) || exit 2
trap 'rm -rf "$room"' EXIT
count=0

differs() { printf 'filters: %s\n' "$*"; exit 1; }

# What a filter makes of the file $room/in: its exit status, and the two files that it wrote are there and the same.
expect() { # FILTER STATUS WHAT
    "./$1" <"$room/in" >"$room/wrote" 2>"$room/said"
    status=$?
    [ "$status" -eq "$2" ] || differs "$3: exit status $status and not $2: $(cat "$room/said")"
    cmp -s "$room/out" "$room/wrote" || differs "$3: writes something else"
    cmp -s "$room/err" "$room/said" || differs "$3: says '$(cat "$room/said")'"
    count=$((count + 1))
}

# Built first, so that what is said while building is not taken for an answer; both at once, as a pipe does on first use.
rm -rf target/filters
printf 'boards 1\n' >"$room/in"
./words <"$room/in" | ./text >"$room/wrote" || exit 2
cmp -s "$room/in" "$room/wrote" || differs "a pipe of filters that are not built yet: writes something else"
count=$((count + 1))

# Each sheet of examples/ makes its words, and the words written and read again are the same.
: >"$room/err"
for sheet in examples/*.sheet; do
    name=${sheet%.sheet}
    case $name in examples/numbered_from_one | examples/one_code_two_sizes) continue ;; esac
    cp "$sheet" "$room/in"
    cp "$name.words" "$room/out"
    expect words 0 "$sheet"
    ./text <"$name.words" >"$room/in" || differs "$name.words is not written"
    expect words 0 "$name.words, written and read again"
done

# What the writer writes.
printf 'boards 3\n0 : 5 ( 1 2 )\n' >"$room/out"
cp examples/panel.words "$room/in"
expect text 0 "a panel, written"

# A sheet as deep as it is long, and one of blanks: one word each.
printf '\002\000\001\000\000\000\006\000\012\000\012\000\000\000\001\000\001\000\001\000' >"$room/out"
{
    printf 'boards 2\n0 '
    head -c 100000 /dev/zero | tr '\000' '('
    printf 'above'
    head -c 100000 /dev/zero | tr '\000' ')'
    printf ' 1\n'
} >"$room/in"
expect words 0 "100,000 parentheses"
{
    printf 'boards 2\n0 above'
    head -c 3000000 /dev/zero | tr '\000' ' '
    printf '1'
} >"$room/in"
expect words 0 "three million blanks"

# Refused: nothing is written, and the refusal is said. Of a sheet that is the line, and the word that the sheet makes there unless the line is malformed.
: >"$room/out"
refused_here() { # REFUSAL WHAT: the sheet in $room/in
    echo "$1" >"$room/err"
    expect words 1 "$2"
}
refused() { # SHEET REFUSAL
    printf '%b' "$1" >"$room/in"
    refused_here "$2" "the sheet '$1'"
}
refused '' 'refused 20 line 1'
refused 'boards 2\n0 above 1\n\n' 'refused 20 line 3'
refused 'boards 2\n0 at or above 1\n' 'refused 20 line 2'
refused 'boards 2\n0 above 01\n' 'refused 20 line 2'
refused 'boards 2\r\n' 'refused 20 line 1'
refused 'boards 2\n0 : 7 ( 1 )\n1 : 7 ( 0 0 )\n0 : 8 ( 1\n' 'refused 20 line 4'

# 1: the number of boards.
refused 'boards 17\n' 'refused 1 word 0 line 1'
refused 'boards 0\n0 : 7 ( 9 )\n0 above 9\n' 'refused 1 word 0 line 1'
refused '  boards  65535' 'refused 1 word 0 line 1'

# 3: in the first, a middle and the last line; relation lines make their words before kind lines, wherever they stand.
nots='not not not not not not not not not not not not not not not' # with a relation after it, one word too many
refused 'boards 2\n0 : 1 ( 1 1 1 1 1 1 1 1 1 )\n' 'refused 3 word 8 line 2'
refused "boards 2\n0 $nots same 1\n0 above 1" 'refused 3 word 8 line 2'
refused "boards 2\n0 : 7 ( 1 )\n0 same or above 1\n1 : 8 ( )\n0 $nots same 1\n1 below 0\n" 'refused 3 word 14 line 5'
refused 'boards 2\n0 : 7 ( 1 )\n0 : 8 ( 1 1 1 1 1 1 1 1 1 )\n0 same or above 1\n' 'refused 3 word 18 line 3'
refused 'boards 9\n0 : 7 ( 1 2 3 4 5 6 7 8 )\n1 : 8 ( 1 2 3 4 5 6 7 8 0 )' 'refused 3 word 19 line 3'

# 4: each board of a line; the first in the words is told, which is not always the first in the text.
refused 'boards 2\n0 above 2\n' 'refused 4 word 7 line 2'
refused 'boards 2\n2 above 0\n' 'refused 4 word 6 line 2'
refused 'boards 2\n2 above 2\n2 above 2\n' 'refused 4 word 6 line 2'
refused 'boards 2\n0 above 1\n2 above 0\n' 'refused 4 word 10 line 3'
refused 'boards 2\n2 : 7 ( 0 1 )\n' 'refused 4 word 6 line 2'
refused 'boards 2\n0 : 7 ( 1 )\n2 : 7 ( 0 )\n' 'refused 4 word 10 line 3'
refused 'boards 2\n2 : 7 ( )\n0 above 1\n' 'refused 4 word 10 line 2'
refused 'boards 2\n0 : 7 ( 2 1 )\n' 'refused 4 word 9 line 2'
refused 'boards 2\n0 : 7 ( 1 65535 )' 'refused 4 word 10 line 2'
refused 'boards 2\n0 : 7 ( 2 )\n0 above 2\n' 'refused 4 word 7 line 3'
refused 'boards 2\n0 : 7 ( 2 )\n0 above 1\n' 'refused 4 word 13 line 2'
refused 'boards 2\n0:7(1)\n0 not(same)1\n1:8(0 2)\n1(below)0' 'refused 4 word 23 line 4'
refused 'boards 2\n  0  :  7  (  1  )  \n  0  not  (  (  same  )  or  inv  above  )  1  \n  0  above  2  ' 'refused 4 word 15 line 4'
refused 'boards 5\n0 : 5 ( 1 2 5 )\n0 above 4\n1 side 4\n2 side 4\n3 not same 4\n' 'refused 4 word 28 line 2'
refused 'boards 5\n0 above 4\n1 side 4\n2 side 4\n0 : 5 ( 1 5 3 )\n3 not same 4\n' 'refused 4 word 27 line 5'
refused 'boards 2\n0 : 7 ( 1 )\n1 : 7 ( 0 0 )\n0 : 8 ( 2 )\n' 'refused 4 word 18 line 4'

# 11: the later of the two lines, whatever stands between them.
refused 'boards 2\n0 : 7 ( 1 )\n1 : 7 ( 0 0 )\n' 'refused 11 word 12 line 3'
refused 'boards 2\n0 : 7 ( 1 )\n0 above 1\n1 : 7 ( 0 0 )\n' 'refused 11 word 16 line 4'
refused 'boards 2\n0 : 7 ( )\n0 : 8 ( 1 )\n0 above 1\n1 : 8 ( 0 )\n1 : 7 ( 0 )\n0 same or above 1\n0 : 8 ( )' 'refused 11 word 29 line 6'
cp examples/numbered_from_one.sheet "$room/in"
refused_here 'refused 4 word 7 line 2' examples/numbered_from_one.sheet
cp examples/one_code_two_sizes.sheet "$room/in"
refused_here 'refused 11 word 13 line 3' examples/one_code_two_sizes.sheet

# 1: too many lines of a sort, of which the first one too many is told; relation lines are counted first.
lines() { # NUMBER LINE
    yes "$2" | head -n "$1"
}
{ printf 'boards 2\n'; lines 129 '0 above 1'; } >"$room/in"
refused_here 'refused 1 word 1 line 130' "129 relation lines"
{ printf 'boards 2\n'; lines 17 '0 : 7 ( 1 )'; } >"$room/in"
refused_here 'refused 1 word 2 line 18' "17 kind lines"
{ printf 'boards 2\n'; lines 100 '0 above 9'; lines 20 '0 : 7 ( 1 )'; lines 40 '0 above 1'; } >"$room/in"
refused_here 'refused 1 word 1 line 150' "140 relation lines, with 20 kind lines among them"
{ printf 'boards 2\n'; lines 9 '0 : 7 ( 9 )'; lines 128 '0 above 9'; lines 9 '0 : 7 ( 1 )'; } >"$room/in"
refused_here 'refused 1 word 2 line 146' "18 kind lines, with 128 relation lines among them"
{ printf 'boards 2\n'; lines 70000 '0 : 7 ( 1 )'; lines 129 '0 above 1'; } >"$room/in"
refused_here 'refused 1 word 1 line 70130' "129 relation lines behind 70,000 kind lines"
{ printf 'boards 17\n'; lines 129 '0 above 1'; lines 17 '0 : 7 ( 1 )'; } >"$room/in"
refused_here 'refused 1 word 0 line 1' "too many boards, relation lines and kind lines"

# The last word of the longest description.
{
    printf 'boards 9\n'
    lines 15 '0 : 7 ( 1 2 3 4 5 6 7 8 )'
    printf '0 : 7 ( 1 2 3 4 5 6 7 9 )\n'
    lines 128 '0 not not not not not not not not not not not not not not same 1'
} >"$room/in"
refused_here 'refused 4 word 2485 line 17' "the longest description, kind lines first"
{
    printf 'boards 9\n'
    lines 128 '0 not not not not not not not not not not not not not not same 1'
    lines 15 '0 : 7 ( 1 2 3 4 5 6 7 8 )'
    printf '0 : 7 ( 1 2 3 4 5 6 7 9 )'
} >"$room/in"
refused_here 'refused 4 word 2485 line 145' "the longest description, relation lines first"

# Lines that are very long, very deep or very many.
{
    printf 'boards 2\n0 '
    yes not | head -n 100000 | tr '\n' ' '
    printf 'above 1\n'
} >"$room/in"
refused_here 'refused 3 word 8 line 2' "100,000 times not"
{
    printf 'boards 2\n0 : 7 ( '
    yes 1 | head -n 500000 | tr '\n' ' '
    printf ')\n0 above 1\n'
} >"$room/in"
refused_here 'refused 3 word 12 line 2' "500,000 ways"
{
    printf 'boards 2\n0 '
    head -c 100000 /dev/zero | tr '\000' '('
    printf 'above'
    head -c 100000 /dev/zero | tr '\000' ')'
    printf ' 1\n0 above'
    head -c 1000000 /dev/zero | tr '\000' ' '
    printf '1\n1 : 7 ( 2 )\n0 below 1'
} >"$room/in"
refused_here 'refused 4 word 21 line 4' "a line behind 100,000 parentheses and a million blanks"
{
    printf 'boards 2\n'
    yes '0 above 1' | head -n 70000
    printf '0 above\n'
} >"$room/in"
refused_here 'refused 20 line 70002' "line 70,002"

# Words that are refused: the word is told, or the place where words are missing.
put_words() { # WORD...: little-endian
    for word; do
        # shellcheck disable=SC2059
        printf "$(printf '\\%03o\\%03o' "$((word % 256))" "$((word / 256))")"
    done
}
unwritten() { # WORDS REFUSAL
    # shellcheck disable=SC2086
    put_words $1 >"$room/in"
    echo "$2" >"$room/err"
    expect text 1 "the words '$1'"
}
unwritten '' 'refused 1 word 0'
unwritten '2 0 0 6 6' 'refused 1 word 5'
unwritten '0 129 17 6 6 6' 'refused 1 word 0'
unwritten '2 129 17 6 6 6' 'refused 1 word 1'
unwritten '2 0 17 6 6 6' 'refused 1 word 2'
unwritten '2 0 0 7 5 7' 'refused 2 word 3'
unwritten '2 0 0 6 5 6' 'refused 2 word 4'
unwritten '2 0 0 6 7 6 0' 'refused 2 word 4'
unwritten '2 0 0 6 6 7' 'refused 2 word 5'
unwritten '2 0 0 6 6 6 0' 'refused 2 word 5'
unwritten '2 1 0 6 8 8 0 1' 'refused 3 word 8'
unwritten '2 1 0 6 9 9 0 1 1' 'refused 3 word 9'
unwritten '2 1 1 6 9 12 0 1 1 0 5 0' 'refused 3 word 9'
unwritten '2 1 0 6 10 10 0 1 0 1' 'refused 3 word 8'
unwritten '2 1 0 6 10 10 9 9 16 9' 'refused 3 word 8'
unwritten '2 1 1 6 11 14 0 1 1 0 0 0 5 0' 'refused 3 word 10'
unwritten '2 0 1 6 6 9 0 5 9' 'refused 3 word 8'
unwritten '2 0 1 6 6 9 0 5 1' 'refused 3 word 9'
unwritten '2 0 1 6 6 10 0 5 0 0' 'refused 3 word 9'
unwritten '2 1 0 6 10 10 2 2 1 8' 'refused 4 word 6'
unwritten '2 1 0 6 10 10 0 2 1 8' 'refused 4 word 7'
unwritten '2 1 1 6 10 13 0 1 1 0 256 5 0' 'refused 4 word 10'
unwritten '3 0 1 6 6 12 0 5 3 1 3 4' 'refused 4 word 10'
unwritten '2 2 0 6 16 16 0 1 1 0 0 1 3 4 8 9' 'refused 5 word 14'
unwritten '2 1 0 6 11 11 0 1 2 4 0' 'refused 5 word 11'
unwritten '2 2 0 6 14 14 0 1 1 6 0 1 1 0' 'refused 5 word 10'
unwritten '2 1 0 6 12 12 0 1 3 6 0 8' 'refused 5 word 11'
unwritten '2 0 2 6 6 15 0 7 1 1 1 7 2 0 0' 'refused 11 word 12'
unwritten '2 1 3 6 10 22 0 1 1 0 0 7 1 1 1 8 0 1 7 2 0 0' 'refused 11 word 19'
cp examples/numbered_from_one.words "$room/in"
echo 'refused 4 word 7' >"$room/err"
expect text 1 examples/numbered_from_one.words
cp examples/one_code_two_sizes.words "$room/in"
echo 'refused 11 word 13' >"$room/err"
expect text 1 examples/one_code_two_sizes.words
printf 'abc' >"$room/in"
echo 'input' >"$room/err"
expect text 1 "three bytes"
head -c 200000 /dev/zero >"$room/in"
echo 'refused 1 word 0' >"$room/err"
expect text 1 "words of 0"

# An answer that cannot be written is not lost in silence.
cp examples/panel.sheet "$room/in"
./words <"$room/in" >/dev/full 2>"$room/said"
[ $? -eq 2 ] || differs "a full output: another exit status than 2"
echo 'words: the answer could not be written' | cmp -s - "$room/said" || differs "a full output: says '$(cat "$room/said")'"
count=$((count + 1))

echo "filters: $count inputs, no difference"
