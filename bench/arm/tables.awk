# Prints what bench/arm/run has counted as tables, from lines
#   book SHAPE UNITS REQUIREMENTS PROGRAM STACK CALCULATION EXAMPLE BOARD     one for each run
#   memory BYTES WORDS...                                                     what takes them
#   units LENGTH HOW INSTRUCTIONS SINGLE                                      477 units by runs of this length, and by single calls
# and those of bench/arm/count.c for the book that costs the library the most.
function thousands(n,    s, t) {
    s = sprintf("%.0f", n)
    while (length(s) > 3) { t = "," substr(s, length(s) - 2) t; s = substr(s, 1, length(s) - 3) }
    return s t
}
function head(words,    n, part, i) {
    n = split(words, part, "|")
    printf "\n|"
    for (i = 1; i <= n; i++) printf " %s |", part[i]
    printf "\n|"
    for (i = 1; i <= n; i++) printf "---|"
    printf "\n"
}
BEGIN { head("book|units|requirements|program|calculation|example|board|calculation at 120 MHz|stack, bytes") }
function program(name) {
    sub(/-soft$/, "", name)
    sub(/-hard$/, ", hard floats", name)
    return name
}
$1 == "book" {
    printf "| %s | %d | %d | %s | %s | %s | %s | %.3f s | %s |\n", $2, $3, $4, program($5), thousands($7), thousands($8), thousands($9), $7 / 120000000, thousands($6)
}
$1 == "units" {
    if ($3 == "single") by[++lengths] = sprintf("| single calls | %s | %.0f | |", thousands($4), $4 / 477)
    else by[++lengths] = sprintf("| runs of %d | %s | %.0f | %+.2f %% |", $2, thousands($4), $4 / 477, 100 * ($4 - $5) / $5)
}
$1 == "memory" {
    words = $3
    for (i = 4; i <= NF; i++) words = words " " $i
    memory[++rows] = sprintf("| %s | %s |", words, thousands($2))
}
$1 == "call" && $3 > 0 { call[++calls] = sprintf("| `%s` | %s | %s | %s | %.3f ms |", $2, thousands($3), thousands($4), thousands($5), $5 / 120000) }
$1 == "function" && $3 == "calculation" {
    name = $5 == "-" ? "`" $4 "`" : "`" $5 "` for `" $4 "`"
    own[name] = $2
    all += $2
}
END {
    head("call, " book "|times|instructions in all|the longest|the longest at 120 MHz")
    for (i = 1; i <= calls; i++) print call[i]
    head("function, " book "|instructions|of the calculation")
    while (1) {
        most = ""
        for (name in own) if (most == "" || own[name] > own[most]) most = name
        if (most == "" || own[most] * 100 < all) break
        printf "| %s | %s | %.0f%% |\n", most, thousands(own[most]), 100 * own[most] / all
        delete own[most]
    }
    head("477 units|instructions|a unit|more than single calls")
    for (i = 1; i <= lengths; i++) print by[i]
    head("memory|bytes")
    for (i = 1; i <= rows; i++) print memory[i]
}
