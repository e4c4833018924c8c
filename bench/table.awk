# The table of the groups, to be read after bench/middle.awk. Each file has the lines of all groups in one order, as a program of bench/run.sh prints them or
# bench/count.sh makes them: a group's task, its name in 14 columns, its sheets, what product, plain C and sweeps take, the ratio of the first to the second, and
# how many times as much as the first and as the second the sweeps take; '-' where there are no sweeps. What they take is averaged over the files.
# unit is what they take it in, with so many places; digits are those of a ratio; compared stands before the largest ratio.

# The line of the geometric means over all groups of a task; those of descriptions that are refused are left out unless they are wanted.
function print_means(title, task, refused,    i, n, product, plain)
{
    for (i = 1; i <= groups; i++) {
        if (tasks[order[i]] != task || (order[i] ~ /refused/ && !refused)) continue
        n++
        product += log(geometric_mean("product " order[i]))
        plain += log(geometric_mean("plain " order[i]))
    }
    printf "%-24s %6d %12.2f %12.2f\n", title, n, exp(product / n), exp(plain / n)
}

FNR == 1 { files++ }
/^the slowest/ { if ($(NF - 1) > slowest_text) slowest_text = $(NF - 1); next }
{
    name = substr($0, 8, 14)
    sub(/ +$/, "", name)
    if (!(name in sheets)) order[++groups] = name
    tasks[name] = $1
    sheets[name] = $(NF - 6)
    product[name] += $(NF - 5)
    plain[name] += $(NF - 4)
    keep("ratio " name, $(NF - 2))
    if ($(NF - 3) == "-") next
    sweeps[name] += $(NF - 3)
    keep("product " name, $(NF - 1))
    keep("plain " name, $NF)
}
END {
    amount = "%12." places "f"
    fraction = "%8." digits "f"
    printf "%-14s %6s %12s %12s %12s %8s %8s\n", "group", "sheets", "product" unit, "plain C" unit, "sweeps" unit, "ratio", "times"
    for (i = 1; i <= groups; i++) {
        name = order[i]
        ratio = geometric_mean("ratio " name)
        if (ratio > largest) { largest = ratio; worst = name }
        printf "%-14s %6d " amount " " amount " ", name, sheets[name], product[name] / files, plain[name] / files
        if (name in sweeps) printf amount " " fraction " %8.2f\n", sweeps[name] / files, ratio, geometric_mean("product " name)
        else printf "%12s " fraction " %8s\n", "-", ratio, "-"
    }
    printf "%sthe largest ratio is %." digits "f (%s)\n", compared, largest, worst
    if (slowest_text) printf "the slowest megabyte of text in one line took %.1f ms\n", slowest_text
    printf "\n%-24s %6s %12s %12s\n", "times as fast as sweeps", "groups", "product", "plain C"
    print_means("closings", "close", 0)
    print_means("closings, with refused", "close", 1)
    print_means("openings", "open", 0)
    print_means("openings, with refused", "open", 1)
    print_means("searches", "search", 1)
}
