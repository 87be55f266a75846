# Turns report's lines into words: behind each number the seconds that its records took by the rate, and their share of all of them in per
# cent; of the triggers' sum the mean. A refusal's line stays as it is.

function share(n) {
    return records ? sprintf(", %.1f %%", 100 * n / records) : ""
}

# What a number says; how often something began is said by the number itself.
function meaning(name, n) {
    if (name ~ /recoveries$/) return ""
    if (name ~ /sum$/) return records ? sprintf("%.3f a record", n / records) : ""
    return sprintf("%.3f s%s", n / rate, name ~ /startup|overrange|ignored/ ? share(n) : "")
}

/^refused/ {
    refusal = $0 "\n"
    next
}

{
    numbers[NR] = $NF
    names[NR] = substr($0, 1, length($0) - length($NF) - 1)
    if (NR == 1) records = $NF
    if (length($NF) > wide) wide = length($NF)
}

END {
    for (i = 1; i in names; i++) {
        line = sprintf("%-15s %" wide "s   %s", names[i], numbers[i], meaning(names[i], numbers[i]))
        sub(/ +$/, "", line)
        print line
    }
    printf "%s", refusal
}
