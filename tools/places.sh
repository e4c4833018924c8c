#!/bin/sh
# Counts in crates/*/src the places of which docs/DESIGN-PASS.md speaks, a line for each kind of place: its count and its name. With a kind's name it
# prints the places themselves.
#   tools/places.sh [NAME]
set -eu
cd "$(dirname "$0")/.."

# the names of the kinds, in the order of the page's points
kinds='own-enum flag-beside-value refusal-as-number kind-as-number go-on-as-bool bool-answer sentinel
twin
counted-while counted-for
as-cast widened-by-hand
set-limit-asked site-parameters table-and-list text-and-place
parallel-arrays room-function
step-by-number'

places() {
    case $1 in
    # 1: own enums; a flag or a number beside the value that it tells of; refusals, kinds and symbols as numbers; `false` for "leave off, a cell is empty"; a
    # number that means none
    own-enum) grep -nE '^(pub(\(crate\))? )?enum ' crates/*/src/*.rt ;;
    flag-beside-value) grep -nE '^ +(pub )?(good: bool|fault: usize|number: u8|sort: u8|symbol: u32),' crates/*/src/*.rt ;;
    refusal-as-number) grep -nE '^pub const [A-Z_]+: u8 = ' crates/answers/src/refusals.rt ;;
    kind-as-number)
        grep -nE '^(pub )?const (E|A|B|S|FULL|AT_OR_ABOVE|NOT_ABOVE|NOT_SAME|OR|AND|TIGHTEST|[A-Z]+_LEVEL|UNION|INTERSECTION|COMPLEMENT|INVERSE|BOARDS|COLON|[A-Z]+_PAREN|UNKNOWN|NO_SYMBOL|WORDS|MALFORMED|RELATION|KIND|READ|OPEN|CLOSE|CHECK|SITE|FROM_TEXT|TO_TEXT): (u8|u16|u32|usize) = ' \
            crates/*/src/*.rt ;;
    go-on-as-bool) grep -nE '^ *if !.*(cells|table), marks\)|^ *if !\(?[a-z_:]*(filled|settle|revisit|strike|through|level)[a-z_]*\(' crates/*/src/*.rt ;;
    bool-answer) grep -nE '\) -> bool' crates/*/src/*.rt ;;
    sentinel) grep -nE '^ *(v|i|from|place|end|at|10|UNKNOWN)$' crates/*/src/*.rt ;;
    # 2: pairs of functions and types that differ in a type, a size or a constant
    twin) grep -nE 'fn (relation_section|kind_section|put_relations|put_kinds|words_kept|bytes_kept|fill_words|fill_bytes|[a-z]+_room|blank|byte_number|word_number|count_number|put_text|put_words|copy)\(|struct (Gathered|Counts) ' crates/*/src/*.rt ;;
    # 3: loops that count by hand
    counted-while) grep -nE '^ +while ' crates/*/src/*.rt ;;
    counted-for) grep -nE '^ +for [a-z]+ in [0-9a-z]+\.\.[a-z]+\.len\(\)' crates/*/src/*.rt ;;
    # 4: conversions by hand
    as-cast) grep -nE ' as (u8|u16|u32|u64|usize)' crates/*/src/*.rt ;;
    widened-by-hand) grep -nE '(byte_number|word_number|count_number|byte_word|number_long)\(' crates/*/src/*.rt ;;
    # 5: facts and parameters that travel together
    set-limit-asked) grep -nE 'requires.*< set_limit' crates/*/src/*.rt ;;
    site-parameters) grep -nE '^ +found: &(mut )?\[u32\],$|fn .*found: &(mut )?\[u32\]' crates/*/src/*.rt ;;
    table-and-list) grep -nE 'marks: &mut \[|fn .*marks: &mut \[' crates/*/src/*.rt ;;
    text-and-place) grep -nE 'fn put_.*text: &mut \[u8\]' crates/*/src/*.rt ;;
    # 6: parallel arrays, and rooms made by a function each
    parallel-arrays) grep -nE 'codes: &(mut )?\[u16\]' crates/*/src/*.rt ;;
    room-function) grep -nE 'fn [a-z_]*(room|blank)\(\)' crates/*/src/*.rt ;;
    # 7: a step chosen by a number
    step-by-number) grep -nE '^ *if (call|f\.call|code|line\.sort|symbol) (==|<|<=) ' crates/*/src/*.rt ;;
    *)
        echo "places.sh: no kind of place is named $1" >&2
        exit 2
        ;;
    esac || [ $? -eq 1 ]
}

if [ $# -gt 0 ]; then
    places "$1"
    exit
fi
for kind in $kinds; do
    printf '%4d %s\n' "$(places "$kind" | wc -l)" "$kind"
done
