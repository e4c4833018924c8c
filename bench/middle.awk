# Means over the programs of bench/run.sh that leave out what is far off: the two lowest and the two highest values, where there are more than four.

# Keeps a value of that name, among those of it from the lowest to the highest.
function keep(name, value,    k)
{
    for (k = ++kept[name]; k > 1 && values[name, k - 1] > value; k--) values[name, k] = values[name, k - 1]
    values[name, k] = value
}

# How many of the lowest values of that name are left out, and of the highest.
function outer(name)
{
    return kept[name] > 4 ? 2 : 0
}

# The geometric mean of the others.
function geometric_mean(name,    k, sum)
{
    for (k = 1 + outer(name); k <= kept[name] - outer(name); k++) sum += log(values[name, k])
    return exp(sum / (kept[name] - 2 * outer(name)))
}

# Their average.
function average(name,    k, sum)
{
    for (k = 1 + outer(name); k <= kept[name] - outer(name); k++) sum += values[name, k]
    return sum / (kept[name] - 2 * outer(name))
}
