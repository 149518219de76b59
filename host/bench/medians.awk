# Reads several runs of `bench times` and prints one line for each call: name, target of the ratio, nanoseconds of both heads, their ratio.
# Each figure is the median of the runs. A program lies at another place in memory in each run, and this makes some calls a few percent
# slower.

function median(name, column, n,    i, j, held) {
    for (i = 1; i <= n; i++) {
        held = figure[name, column, i]
        for (j = i; j > 1 && sorted[j - 1] > held; j--) sorted[j] = sorted[j - 1]
        sorted[j] = held
    }
    return sorted[int((n + 1) / 2)]
}

BEGIN { FS = OFS = "\t" }

!($1 in runs) { names[++calls] = $1 }

{
    target[$1] = $2
    runs[$1]++
    figure[$1, "proved", runs[$1]] = $3
    figure[$1, "reference", runs[$1]] = $4
}

END {
    for (call = 1; call <= calls; call++) {
        name = names[call]
        proved = median(name, "proved", runs[name])
        reference = median(name, "reference", runs[name])
        ratio = reference > 0 ? sprintf("%.2f", proved / reference) : "-"
        print name, target[name], proved, reference, ratio
    }
}
