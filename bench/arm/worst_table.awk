# Prints the table of bench/arm/worst from what bench/arm/worst.awk leaves for soft floats and for hard ones (variables soft and hard: the files), and what a whole
# book takes by these figures.
function thousands(n,    s, t) {
    s = sprintf("%.0f", n)
    while (length(s) > 3) { t = "," substr(s, length(s) - 2) t; s = substr(s, 1, length(s) - 3) }
    return s t
}
function read_all(file, floats,    line, field, i) {
    while ((getline line < file) > 0) {
        split(line, field, "|")
        if (line ~ /^call / && floats == "soft") order[++kinds] = field[1]
        most[floats, field[1]] = field[2]
        stack[floats, field[1]] = field[3]
        input[floats, field[1]] = line ~ /^call / ? field[4] : field[3]
    }
}
function words(key,    part) {
    split(key, part, " ")
    if (part[3] == "-") return "`" part[2] "`"
    if (part[2] == "dullavane_listing") return "`" part[2] "`, text of " thousands(part[3]) " bytes"
    return "`" part[2] "`, a " part[3] "'s row"
}
function row(what, n) { printf "| %s | %s | %.3f s | %d times that |\n", what, thousands(n), n / 120000000, 300 * 120000000 / n }
function at_clock(n) { return sprintf("%.3f ms", n / 120000) }
BEGIN {
    read_all(soft, "soft")
    read_all(hard, "hard")
    print "| call | instructions | at 120 MHz | stack, bytes | hard floats: instructions | stack, bytes | found with |"
    print "|---|---|---|---|---|---|---|"
    for (i = 1; i <= kinds; i++) {
        key = order[i]
        printf "| %s | %s | %s | %s | %s | %s | %s |\n", words(key), thousands(most["soft", key]), at_clock(most["soft", key]), thousands(stack["soft", key]),
            thousands(most["hard", key]), thousands(stack["hard", key]), input["soft", key]
    }
    one["contents"] = one["settings"] = one["units"] = 1
    one["frequency"] = 5
    one["requirement"] = one["answer"] = 32
    one["member"] = 32 * 512
    for (name in one) book += one[name] * most["soft", "call dullavane_" name " -"]
    print ""
    print "| a book of 512 units and 32 requirements | instructions | at 120 MHz | five minutes are |"
    print "|---|---|---|---|"
    row("taken and answered, every call at its worst", book)
    row("its whole listing, in pieces of 165 bytes", most["soft", "whole 165"])
    row("in pieces of 1,200 bytes", most["soft", "whole 1200"])
    row("in pieces of 4,096 bytes", most["soft", "whole 4096"])
    print ""
    print "The listings were found with: " input["soft", "whole 165"] "; " input["soft", "whole 1200"] "; " input["soft", "whole 4096"] "."
}
