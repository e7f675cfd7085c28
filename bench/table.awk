# table.awk: the tables of run.sh, from the rows that bench.c prints at each place. `under` is what the library is measured beside, C or before;
# `places` how often the program was linked. A figure is the median over the places.
BEGIN { FS = "\t" }

function middle(key,    i, k, v, n) {
    n = count[key]
    for (i = 2; i <= n; i++)
        for (k = i; k > 1 && value[key, k - 1] > value[key, k]; k--) { v = value[key, k]; value[key, k] = value[key, k - 1]; value[key, k - 1] = v }
    return (value[key, int((n + 1) / 2)] + value[key, int(n / 2) + 1]) / 2
}
NF == 6 {
    key = $1 FS $2 FS $3
    if (!(key in count)) { keys[++all] = key; least[key] = $5; most[key] = $6 }
    value[key, ++count[key]] = $4 + 0
    if ($5 + 0 < least[key] + 0) least[key] = $5
    if ($6 + 0 > most[key] + 0) most[key] = $6
    if ($1 != "whole" && !(($1, $3) in seen)) { seen[$1, $3] = 1; columns[$1] = columns[$1] sprintf(" %6d", $3) }
    if ($1 != "whole" && !(($1, $2) in rows)) { rows[$1, $2] = 1; tables[$1] = tables[$1] FS $2 }
    if ($1 != "whole" && !($1 in named)) { named[$1] = 1; names[++grown] = $1 }
}
END {
    printf "\n%-17s %8s   %-16s %s\n", "library / " under, "ratio", (places == 4 ? "four" : places) " places", "all rounds"
    for (i = 1; i <= all; i++) {
        split(keys[i], part, FS)
        if (part[1] != "whole") continue
        m = middle(keys[i])
        printf "%-17s %8.2f   %5.2f to %5.2f   %5.2f to %5.2f\n", part[2], m, value[keys[i], 1], value[keys[i], count[keys[i]]], least[keys[i]], most[keys[i]]
    }
    for (g = 1; g <= grown; g++) {
        printf "\n%-39s%s\n", names[g], columns[names[g]]
        lines = split(substr(tables[names[g]], 2), row, FS)
        sizes = split(columns[names[g]], size, " ")
        for (i = 1; i <= lines; i++) {
            name = row[i]
            if (under != "C") { sub("/ C$", "/ " under, name); sub("C / C", under " / " under, name) }
            printf "  %-37s", name
            for (k = 1; k <= sizes; k++) printf " %6.2f", middle(names[g] FS row[i] FS size[k])
            printf "\n"
        }
    }
}
