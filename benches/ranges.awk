# For each line that ends with a ratio, whose words are the variable `ratio`: its mean, its lowest and its highest over all files.
index($0, ratio " ") {
    name = substr($0, 1, index($0, ": ") - 1)
    if (!(name in low)) {
        names[++lines] = name
        low[name] = high[name] = $NF
    }
    if ($NF < low[name]) low[name] = $NF
    if ($NF > high[name]) high[name] = $NF
    sum[name] += $NF
    times[name]++
}
END {
    for (i = 1; i <= lines; i++) {
        name = names[i]
        printf "%s: %.2f, %s to %s\n", name, sum[name] / times[name], low[name], high[name]
    }
}
