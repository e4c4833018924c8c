#!/bin/sh
# wrong.sh [CRATE | CRATE/EDIT]...: shows by a run that edits which the prover must refuse give wrong answers, and are not merely unfit for the proof. Each edit
# that is named, or each of a crate, is applied to a copy of the sources; the program 'cases' is made of these without proof, and what it answers to the stored cases
# is compared with the stored answers. Without an argument these are the edits of the list by which a closing goes, below. Prints a line for each edit: how many
# cases are answered otherwise, and of which calls; or that the program traps, or does not end in time, which is wrong too, since each call must end.
# Exit status: 0 each edit gives a wrong answer; 1 one answers all cases as stored; 2 something could not be built.
set -eu
LC_ALL=C
export LC_ALL
cd "$(dirname "$0")/.."
. tools/kit.sh

# What can be wrong with the list, and the edits that make it so.
edits_of_the_list='
a pair not put on it after a strike by any rule: moves/pair_put_on_the_list_beside_itself
after one by rule 2: sweeps/rule_2_pair_put_on_another_list
after one by rule 3: sweeps/rule_3_pair_put_on_another_list sweeps/rule_3_other_pair_put_on_another_list
after one by rule 6: panels/rule_6_panel_put_on_another_list panels/rule_6_way_put_on_another_list
after one by rule 7: same_panels/rule_7_panels_put_on_another_list same_panels/rule_7_ways_put_on_another_list
another pair struck: sweeps/known_pair_struck_at_a_board_and_itself moves/pair_struck_at_a_board_and_itself sweeps/rule_3_strikes_another_pair
and by rules 6 and 7: panels/rule_6_panel_struck_from_below same_panels/rule_7_ways_joined_with_themselves
only one direction of a pair revisited: sweeps/rule_3_from_one_side_only rounds/kind_lines_visited_from_one_side_only same_panels/rule_7_ways_of_one_board_only
a kind line found by its panel but not by its ways: panels/ways_visited_only_where_they_reach same_panels/rule_7_lines_not_found_by_their_ways
left or emptied after one pass: rounds/list_left_with_pairs_on_it rounds/list_emptied_after_one_pair
a mark not taken off: rounds/mark_not_taken_off
the narrowed pair of a try not on it: choosing/try_struck_at_a_board_and_itself
'

room=$(mktemp -d) || die "no temporary folder"
trap 'rm -rf "$room"' EXIT

copy_source() { # CRATE: into the room, without its proofs and its cases
    rm -rf "$room/crates/$1"
    mkdir -p "$room/crates/$1"
    cp -R "crates/$1/src" "$room/crates/$1/"
}

edit_file() { # CRATE/EDIT: one that the prover must refuse, or one that is for a run alone, in tests/wrong/, since it would change the form of the proof too
    file=crates/${1%%/*}/must-fail/${1#*/}.edit
    [ -f "$file" ] || file=tests/wrong/$1.edit
    printf '%s\n' "$file"
}

apply() { # CRATE/EDIT: as rt does; a line 'file:' holds for the pairs 'old:' and 'new:' after it, and an old text stands once in its file
    source='' old=''
    while IFS= read -r line || [ -n "$line" ]; do
        case $line in
        'file: '*) source=$room/crates/${1%%/*}/${line#file: } ;;
        'old: '*) old=${line#old: } ;;
        'new:'*)
            new=${line#new:}
            OLD=$old NEW=${new# } awk '
                { text = text $0 "\n" }
                END {
                    old = ENVIRON["OLD"]
                    at = index(text, old)
                    rest = substr(text, at + length(old))
                    if (old == "" || !at || index(rest, old)) exit 1
                    printf "%s%s%s", substr(text, 1, at - 1), ENVIRON["NEW"], rest
                }' "$source" >"$room/edited" || return 1
            mv "$room/edited" "$source"
            ;;
        esac
    done <"$(edit_file "$1")"
}

# The cases are given to the program in parts of so many, since rt gives no answers of a run that traps or does not end. A part may take so many seconds. With the
# sources as they stand the slowest, which has searches of 10,000 tries, takes some 20.
cases_of_a_part=128
seconds=100

# Cuts a file of cases into files of so many cases each, named by rising numbers. A case is four numbers of 32 bits, of which the first is its call and the last
# two are how many words and cells it has; then come the words, of two bytes, or for calls 5 and 6 of one; then the cells, of one byte.
cut_cases() { # FILE FOLDER NUMBER
    rm -rf "$2"
    mkdir "$2"
    od -A n -v -t u1 "$1" | awk -v number="$3" '
        function front(i) { return byte[i] + 256 * (byte[i + 1] + 256 * (byte[i + 2] + 256 * byte[i + 3])) }
        function part() { printf "%06d %d %d\n", ++parts, begins, length_of_part; begins += length_of_part; length_of_part = cases = 0 }
        {
            for (i = 1; i <= NF; i++) {
                byte[++at] = $i
                if (at == 16) ends = 16 + front(9) * (front(1) == 5 || front(1) == 6 ? 1 : 2) + front(13)
                if (at < 16 || at < ends) continue
                length_of_part += at
                at = 0
                if (++cases == number) part()
            }
        }
        END { if (cases) part() }' |
        while read -r name begins length; do
            tail -c "+$((begins + 1))" "$1" | head -c "$length" >"$2/$name"
        done
}

# Makes the program of the sources in the room without proof, and has it answer each file of cases of a folder, up to the first that it does not answer as a whole.
# The answers go to the file 'answers' of the room, without those of that file, and its name and how it ends to the file 'ended'. rt would have an interpreter run
# each file too, which is slow: with one step it leaves that.
run_cases() { # FOLDER
    : >"$room/log"
    (cd "$room/crates/cases" && exec rt try --steps 1 --seconds "$seconds" --cases "$1") >"$room/given" 2>"$room/log" &
    run=$!
    while kill -0 "$run" 2>/dev/null; do
        unanswered >"$room/ended"
        if [ -s "$room/ended" ]; then
            kill "$run" 2>/dev/null || :
            break
        fi
        sleep 1
    done
    wait "$run" || :
    unanswered >"$room/ended"
    # where it ran to the end, rt counts the files
    [ -s "$room/ended" ] || grep -q '^cases=' "$room/log" || return 1
    # what a file was answered stands below its name
    awk -v last="$(cut -d ' ' -f 1 "$room/ended")" '
        /^== [0-9]+$/ { before = last == "" || $2 < last; next }
        before
    ' "$room/given" >>"$room/answers"
}

unanswered() { # the first file of the log that was not answered, and how it ended
    awk -v seconds="$seconds" '
        /^case=/ && !/ run=ended status=0 / {
            sub(/^case=/, "")
            if ($2 == "run=fault") how = "a trap"
            else if ($2 == "run=no-answer") how = "no end in " seconds " seconds"
            else how = "an end, with " $3
            print $1, how
            exit
        }' "$room/log"
}

# Has the program of the sources in the room answer the stored cases. What is wrong goes to the file 'wrong' of the room: nothing, if all is answered as stored.
answer() {
    : >"$room/answers"
    run_cases "$room/parts" || run_cases "$room/parts" || {
        cat "$room/log" >&2
        return 1
    }
    ends='' where=''
    if [ -s "$room/ended" ]; then
        read -r part ends <"$room/ended"
        where="in the $cases_of_a_part cases from"
        cut_cases "$room/parts/$part" "$room/part" 1
        cp "$room/answers" "$room/before"
        run_cases "$room/part" || run_cases "$room/part" || return 1
        if [ -s "$room/ended" ]; then
            read -r part ends <"$room/ended"
            where='in case'
        else
            # none of these cases alone
            mv "$room/before" "$room/answers"
        fi
    fi
    awk -v ends="$ends" -v where="$where" '
        # an answer begins with the name of its call, and goes on in lines that begin otherwise
        /^(read|open|close|search|check|site|typed|texted)( |$)/ { count[FILENAME]++ }
        { answer[FILENAME, count[FILENAME]] = answer[FILENAME, count[FILENAME]] $0 "\n" }
        END {
            all = count[ARGV[1]]
            answered = count[ARGV[2]] + 0
            for (i = 1; i <= answered; i++) {
                if (answer[ARGV[2], i] == answer[ARGV[1], i]) continue
                wrong++
                split(answer[ARGV[1], i], word)
                if (!by[word[1]]++) call[++calls] = word[1]
            }
            for (i = 1; i <= calls; i++) of = of (i == 1 ? "" : ", ") call[i] " " by[call[i]]
            if (ends == "" && answered != all) { ends = "an end"; where = "in case" }
            if (ends != "") print ends " " where " " answered + 1 " of " all (wrong ? "; answered otherwise before it: " wrong " (" of ")" : "")
            else if (wrong) print wrong " of " all " cases answered otherwise (" of ")"
        }' crates/cases/stdout "$room/answers" >"$room/wrong"
}

worst=0
try() { # CRATE/EDIT
    if ! grep -q '^file: src/' "$(edit_file "$1")"; then
        printf '%s: edits what is promised, and nothing that runs\n' "$1"
    elif ! apply "$1"; then
        printf '%s: does not fit the source\n' "$1"
        worst=2
    elif ! answer; then
        printf '%s: could not be built\n' "$1"
        worst=2
    elif [ -s "$room/wrong" ]; then
        printf '%s: %s\n' "$1" "$(cat "$room/wrong")"
    else
        printf '%s: ALL CASES ANSWERED AS STORED\n' "$1"
        [ "$worst" -ne 0 ] || worst=1
    fi
    copy_source "${1%%/*}"
}

# shellcheck disable=SC2046
[ $# -gt 0 ] || set -- $(printf '%s' "$edits_of_the_list" | sed 's/.*: //')
for name; do
    case $name in
    */*) [ -f "$(edit_file "$name")" ] || die "no edit $name" ;;
    *) [ -d "crates/$name/must-fail" ] || die "no edits of $name" ;;
    esac
done

# The sources as they stand answer as stored, or the edits would show nothing.
cp crates.txt "$room/"
for folder in crates/*/src; do
    crate=${folder%/src}
    copy_source "${crate#*/}"
done
cut_cases crates/cases/stdin "$room/parts" "$cases_of_a_part"
answer || die "the program could not be made without proof"
[ ! -s "$room/wrong" ] || die "the sources as they stand: $(cat "$room/wrong")"

for name; do
    case $name in
    */*) try "$name" ;;
    *)
        for edit in "crates/$name/must-fail"/*.edit; do
            edit=${edit##*/}
            try "$name/${edit%.edit}"
        done
        ;;
    esac
done
exit "$worst"
