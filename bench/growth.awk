# The tables of growth, to be read after bench/middle.awk, of lines that programs of bench/run.sh print. The first file has the triples of one closing or try by
# plain C and by sweeps, after a word for it and the boards; the others have the sheets or tries there, and the times of product, plain C and sweeps.
{ line = $1 " " $2 }
NR == FNR {
    order[++lines] = line
    triples[line] = sprintf("%16.1f %16.1f", $3, $4)
    next
}
{
    number[line] = $3
    keep("product " line, $4)
    keep("plain " line, $5)
    keep("sweeps " line, $6)
}
END {
    for (i = 1; i <= lines; i++) {
        line = order[i]
        split(line, words, " ")
        if (words[1] != title) {
            title = words[1]
            printf "\none %-8s %6s %12s %12s %12s %16s %16s\n", title, title == "try" ? "tries" : "sheets",
                "product ns", "plain C ns", "sweeps ns", "plain C triples", "sweeps triples"
        }
        printf "%2d boards    %6d %12.1f %12.1f %12.1f %s\n", words[2], number[line],
            average("product " line), average("plain " line), average("sweeps " line), triples[line]
    }
}
