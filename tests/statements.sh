#!/bin/sh
# Compares docs/STATEMENTS.md, and the table of docs/DECISIONS.md of what opens the number of relations, with the tree, in both directions: functions, theorems,
# edits that are refused, files, declarations. Prints a line for each difference: where it is, and what stands there but not on the other side. Prints a line too
# for each public function that could be private to its crate.
# Exit status: 0 no difference; 1 a difference.
set -eu
LC_ALL=C
export LC_ALL
cd "$(dirname "$0")/.."

room=$(mktemp -d)
trap 'rm -rf "$room"' EXIT

# What is compared goes to the lists $room/docs and $room/tree, in lines of three fields: the thing, where it stands, and what else must have it, or '-' where
# nothing must. $room/references has the functions that are named beside their rows: these must be there, but are no rows. What can be told from one side alone goes
# to $room/differences at once. Fields are parted by tabs, here and in all that follows.

# What the awk programs share.
shared='
# what stands in backticks in a text, and how many there are
function spans(text, a,    part, n, i) {
    split("", a)
    n = split(text, part, "`")
    for (i = 2; i < n; i += 2) a[i / 2] = part[i]
    return int((n - 1) / 2)
}
# the path of a file or folder that is named with its crate or in full; of anything else, nothing
function path(name) {
    if (name ~ /^[a-z0-9_]+\/(proofs|specs)\/.*[^\/]$/) return "crates/" name ".antt"
    if (name ~ /^[a-z0-9_]+\/(proofs|specs)\/?$/) name = "crates/" name
    sub(/\/$/, "", name)
    return name ~ /^(crates|docs|tests)(\/|$)/ ? name : ""
}
# the files that a cell names: a bare name is of the folder that follows it after "of", or else of the folder that is given
function files(cell, folder, a,    part, n, i, k) {
    n = split(cell, part, "`")
    for (i = 2; i < n; i += 2)
        if (part[i] !~ /\//) a[++k] = (part[i + 1] == " of " && i + 2 < n ? part[i + 2] : folder) part[i] ".antt"
        else if (part[i] !~ /\/$/) a[++k] = path(part[i]) == "" ? part[i] : path(part[i])
    return k + 0
}
# the function with which a row or a span begins, and the crate of either
function callee(cell) {
    if (cell ~ /^`?[a-z0-9_]+(::[A-Za-z0-9_]+)+(\(|$)/) { sub(/^`/, "", cell); sub(/\(.*/, "", cell) }
    return cell
}
function crate(cell) {
    sub(/^`/, "", cell)
    sub(/[:`].*/, "", cell)
    return cell
}
# the name of the signature NAME : with which the line at hand begins, if it does
function signed(    i) {
    i = 1
    while ($i == "pub" || $i == "abbrev" || $i == "unfoldable") i++
    return $(i + 1) == ":" ? $i : ""
}
'

# over PROGRAM FILES...: an awk program over lines of fields
over() {
    program=$1
    shift
    awk -F '\t' -v OFS='\t' "$shared$program" "$@"
}

# kept WORDS...: the files and folders of crates/ that find has by these words, but for what rt makes there, which holds copies of the others
kept() {
    find crates -path 'crates/*/out' ! -path 'crates/*/*/out' -prune -o "$@" -print
}

# rows DOCUMENT: the rows of its tables, as section, heads of the columns, folder that the heads or the line above the table name, where, and the cells
rows() {
    awk "$shared"'
        /^## / { section = substr($0, 4) }
        !/^\|/ { n = 0; if ($0 != "") above = $0; next }
        { n++; sub(/^\| */, ""); sub(/ *\| *$/, "") }
        n == 1 {
            heads = $0
            folder = ""
            k = spans(above " " heads, s)
            for (i = 1; i <= k; i++) if (s[i] ~ /\/$/) folder = s[i]
        }
        n > 2 { gsub(/ *\| */, "\t"); print section "\t" heads "\t" folder "\t" FILENAME ":" FNR "\t" $0 }
    ' "$1"
}

# marks DOCUMENT: all that stands in backticks, as section, where, and what stands there
marks() {
    awk "$shared"'
        /^## / { section = substr($0, 4) }
        { n = spans($0, s); for (i = 1; i <= n; i++) print section "\t" FILENAME ":" FNR "\t" s[i] }
    ' "$1"
}

# Each signature 'NAME :' of the definitions and the proofs, as file, name, where, and pub, field (a public one of a public record) or other.
signatures() {
    kept -name '*.antt' | sort | xargs awk "$shared"'
        FNR == 1 { record = 0 }
        { here = match($0, /[^ ]/) }
        here == 0 || /^ *--/ { next }
        record && here <= record { record = 0 }
        /^ *pub record / { record = here; next }
        { kind = $1 != "pub" ? "other" : record ? "field" : "pub" }
        { name = signed(); if (name != "") print FILENAME "\t" name "\t" FILENAME ":" FNR "\t" kind }
    '
}

# Each declaration that has relations among the names of its unfolding lines, as file, name and where. Its signature is the last line above that is indented
# as the unfolding is; the names may go on in lines that are indented more.
opening() {
    kept -name '*.antt' | sort | xargs awk "$shared"'
        FNR == 1 { split("", declared); names = "" }
        { here = match($0, /[^ ]/) }
        here == 0 || /^ *--/ { next }
        names != "" && here > column { names = names " " $0; next }
        names != "" {
            if ((names " ") ~ / relations /) print FILENAME "\t" declared[column] "\t" FILENAME ":" from
            names = ""
        }
        $1 == "unfolding" { column = here; names = $0; from = FNR; next }
        { declared[here] = signed() }
    '
}

# The public functions of the crates that are no programs, as things; a method after its type.
public_functions() {
    for folder in crates/*/src; do
        [ -f "$folder/main.rt" ] || find "$folder" -name '*.rt'
    done | xargs awk '
        /^impl[ <]/ { type = $0; sub(/ *\{.*/, "", type); sub(/^.* /, "", type); sub(/<.*/, "", type) }
        /^}/ { type = "" }
        /^ *pub ([a-z]+ |"C" )*fn / {
            module = FILENAME
            sub(/^crates\//, "", module)
            sub(/\.rt$/, "", module)
            sub(/\/src\/lib$/, "", module)
            sub(/\/src\//, "::", module)
            gsub(/\//, "::", module)
            sub(/^ *pub ([a-z]+ |"C" )*fn /, "")
            sub(/[^A-Za-z0-9_].*/, "")
            if (type != "") module = module "::" type
            print "function " module "::" $0 "\t" FILENAME ":" FNR "\tdocs/STATEMENTS.md"
        }
    '
}

# Each public function has one row under 'Public functions', and each row has a function. Each function that is named anywhere is there.
functions() {
    cat "$room/public" >>"$room/tree"
    over '$1 == "Public functions" { print "function " callee($5), $4, "the tree" }' "$room/rows" >>"$room/docs"
    over '
        $1 == "Public functions" && seen[callee($5)]++ { print $4 ": function " callee($5) " has a row above too" }
    ' "$room/rows" >>"$room/differences"
    over '$3 ~ /^[a-z0-9_]+::/ { print "function " callee($3), $2, "the tree" }' "$room/marks" >>"$room/references"
}

# The functions that the code of each crate names of other crates, as things. An import names each that it has in braces, and may go on in further lines. Of a
# method that is called on a value, or named after its type, it is known that some method of this name is named in the crate.
named_functions() {
    kept -path '*/src/*' -name '*.rt' | xargs awk '
        # what a list of an import names after the path that stands before its braces
        function listed(before, list,    i, c, depth, item) {
            list = list ","
            for (i = 1; i <= length(list); i++) {
                c = substr(list, i, 1)
                if (c == "{") depth++
                if (c == "}") depth--
                if (c != "," || depth > 0) { item = item c; continue }
                gsub(/^ +| +$/, "", item)
                if (match(item, /\{/)) listed(before substr(item, 1, RSTART - 1), substr(item, RSTART + 1, length(item) - RSTART - 1))
                else named(before item)
                item = ""
            }
        }
        function named(text,    name) {
            while (match(text, /[a-z0-9_]+(::[a-z0-9_]+)+/)) {
                name = substr(text, RSTART, RLENGTH)
                text = substr(text, RSTART + RLENGTH)
                if (index(name, part[2] "::") != 1) print "function " name
            }
        }
        function called(text,    name) {
            while (match(text, /(\.|[A-Z][A-Za-z0-9]*::)[a-z0-9_]+/)) {
                name = substr(text, RSTART, RLENGTH)
                text = substr(text, RSTART + RLENGTH)
                sub(/.*[.:]/, "", name)
                print "method " name " in " part[2]
            }
        }
        { split(FILENAME, part, "/"); sub(/\/\/.*/, "") }
        { called($0) }
        sub(/^ *(pub(\([a-z]+\))? +)?use +/, "") { import = 1; text = "" }
        !import { named($0); next }
        { text = text $0 }
        sub(/;.*/, "", text) { listed("", text); import = 0 }
    '
}

# Each public function is named in the code of another crate: what is not could be private to its own. No crate can name those of a static library, which are
# for C.
needed() {
    named_functions >"$room/named"
    sed -n 's/^\([a-z0-9_]*\) staticlib:.*/\1/p' crates.txt >"$room/for_c"
    over '
        FILENAME == ARGV[1] { named[$1]; if (split($1, part, " ") == 4) crates[part[2]] = crates[part[2]] " " part[4] " "; next }
        FILENAME == ARGV[2] { named_by_c["function " $1]; next }
        { n = split($1, part, "::"); used = $1 in named }
        n > 2 && part[n - 1] ~ /^[A-Z]/ {
            others = crates[part[n]]
            own = part[1]
            sub(/^function /, "", own)
            gsub(" " own " ", "", others)
            used = others != ""
        }
        !used && !(part[1] in named_by_c) { print $2 ": " $1 " is public, and no other crate names it" }
    ' "$room/named" "$room/for_c" "$room/public" >>"$room/differences"
}

# Each row of a function names theorems of its crate's proofs/Determined, and each public one of these is named in a row of the crate.
determined() {
    over '
        $1 ~ /^crates\/[^\/]*\/proofs\/Determined\.antt$/ && $4 == "pub" {
            split($1, part, "/")
            print "theorem " $2 " of " part[2], $3, "docs/STATEMENTS.md"
        }
    ' "$room/signatures" >>"$room/tree"
    over '
        $1 == "Public functions" { n = spans($7, s); for (i = 1; i <= n; i++) print "theorem " s[i] " of " crate($5), $4, "the tree" }
    ' "$room/rows" >>"$room/docs"
    over '$1 == "Public functions" && $7 !~ /`/ { print $4 ": no theorem for function " callee($5) }' "$room/rows" >>"$room/differences"
}

# Each theorem about the demands, and each field of their sentences, is named in the two sections about them. Each theorem that the tables there name is one of
# these, or stands in a file that the same cell names.
demands() {
    over '
        $1 ~ /^crates\/(demands\/proofs\/(Arities|Contracts|Demands|Openings|Places|Refuted|Texts)|talung_c\/proofs\/Contracts)\.antt$/ && $4 == "pub" || $1 ~ /^crates\/demands\/specs\/(Arities|Openings|Places|Sentences|Texts)\.antt$/ && $4 == "field" {
            print "theorem " $2 " of the demands", $3, "docs/STATEMENTS.md"
        }
    ' "$room/signatures" >>"$room/tree"
    over '
        FILENAME == ARGV[1] { stands[$1, $2]; next }
        $1 != "The three demands" && $1 != "How far the statements reach" { next }
        FILENAME == ARGV[2] { print "theorem " $3 " of the demands", $2, "-"; next }
        {
            n = spans($6, s)
            for (i = 1; i <= n; i++) {
                elsewhere = s[i] ~ /[ \/:().]/
                for (j = 1; j <= n; j++) if ((path(s[j]), s[i]) in stands) elsewhere = 1
                if (!elsewhere) print "theorem " s[i] " of the demands", $4, "the tree"
            }
        }
    ' "$room/signatures" "$room/marks" "$room/rows" >>"$room/docs"
}

# Each row of a table of laws names theorems, and each of them stands in one of the files that the row names.
laws() {
    over '
        FILENAME == ARGV[1] { stands[$1, $2]; next }
        $2 != "law | theorem | file" || $6 ~ /one theorem for each public function/ { next }
        {
            n = spans($6, s)
            k = files($7, $3, a)
            if (n == 0) print $4 ": no theorem for the law: " $5
            for (i = 1; i <= n; i++) {
                found = 0
                for (j = 1; j <= k; j++) if ((a[j], s[i]) in stands) found = 1
                if (!found) print $4 ": theorem " s[i] " is not in " $7
            }
        }
    ' "$room/signatures" "$room/rows" >>"$room/differences"
}

# Each edit that is refused is named in a row of a function of its crate, or in its crate's row in the table of crates, and each edit that is named is there.
# Functions, files and crates that stand in the same cells are no edits.
edits() {
    kept -path '*/must-fail/*.edit' | awk -F / '
        { name = $4; sub(/\.edit$/, "", name); print "edit " name " of " $2 "\t" $0 "\tdocs/STATEMENTS.md" }
    ' >>"$room/tree"
    over '
        FILENAME == ARGV[1] { tree[$1]; next }
        $1 == "Public functions" { n = spans($8, s) }
        $2 == "crate | edits that are refused" { n = spans($6, s) }
        {
            for (i = 1; i <= n; i++)
                if (s[i] !~ /::/ && path(s[i]) == "" && !(("file crates/" s[i]) in tree)) print "edit " s[i] " of " crate($5), $4, "the tree"
            n = 0
        }
    ' "$room/tree" "$room/rows" >>"$room/docs"
}

# Each file that is named is there, and each file of definitions of rules, trees, clauses and demands is named.
named_files() {
    { kept; find docs tests; } | awk '
        { due = /^crates\/(rules|trees|clauses|demands)\/specs\/.*\.antt$/ && !/\/Lib\.antt$/ }
        { print "file " $0 "\t" $0 "\t" (due ? "docs/STATEMENTS.md" : "-") }
    ' >>"$room/tree"
    over '{ p = path($3); if (p != "") print "file " p, $2, "the tree" }' "$room/marks" >>"$room/docs"
    over '
        $1 == "The definitions" { n = files($5, $3, a) }
        $2 == "law | theorem | file" && $6 ~ /`/ { n = files($7, $3, a) }
        { for (i = 1; i <= n; i++) print "file " a[i], $4, "the tree"; n = 0 }
    ' "$room/rows" >>"$room/docs"
}

# Each declaration that opens the number of relations is named in its file's row of the table of these, and each that is named there opens it.
openings() {
    opening >"$room/opening"
    rows docs/DECISIONS.md >"$room/decisions"
    over '
        $2 == "file | declarations that open it | for what" {
            spans($5, file)
            n = spans($6, s)
            if (n == 0) print path(file[1]), "\"" $6 "\"", $4
            for (i = 1; i <= n; i++) print path(file[1]), s[i], $4
        }
    ' "$room/decisions" >"$room/opened"
    over '{ print "opening of relations by " $2 " in " $1, $3, "docs/DECISIONS.md" }' "$room/opening" >>"$room/tree"
    over '{ print "opening of relations by " $2 " in " $1, $3, "the tree" }' "$room/opened" >>"$room/docs"
}

# Where the table names all of them and nothing else, it names those of a file once and in the order of the file.
order() {
    ! grep -q ': opening of relations by ' "$room/differences" || return 0
    over '
        FILENAME == ARGV[1] { tree[$1] = tree[$1] " " $2; next }
        { row[$1] = row[$1] " " $2; where[$1] = $3 }
        END { for (file in row) if (row[file] != tree[file]) print where[file] ": " file " has these, each once and in this order:" tree[file] }
    ' "$room/opening" "$room/opened" >>"$room/differences"
}

# only ONE OTHER: a line for each thing of the one list that must stand in the other, and does not
only() {
    over 'FILENAME == ARGV[1] { other[$1]; next } $3 != "-" && !($1 in other) { print $2 ": " $1 " is not in " $3 }' "$2" "$1" >>"$room/differences"
}

rows docs/STATEMENTS.md >"$room/rows"
marks docs/STATEMENTS.md >"$room/marks"
signatures >"$room/signatures"
public_functions >"$room/public"
named_files
functions
needed
determined
demands
laws
edits
openings
only "$room/docs" "$room/tree"
only "$room/references" "$room/tree"
only "$room/tree" "$room/docs"
order

if [ -s "$room/differences" ]; then
    sort -u -t : -k 1,1 -k 2,2n -k 3 "$room/differences"
    echo "statements: differences: $(sort -u "$room/differences" | wc -l)"
    exit 1
fi
echo "statements: $(over '$3 != "-"' "$room/tree" | wc -l) names of the tree, no difference"
