# Joins what bench/arm/count.c has counted (lines `each NAME COUNT`) with what bench/arm/worst.c has said, which has a line for every call in the same order.
# Prints for each kind of call
#   call NAME KIND | INSTRUCTIONS | STACK | INPUT      the most instructions, the most stack, and the input with the most instructions
# and for the listings by pieces of each length
#   whole KIND | INSTRUCTIONS | INPUT                  the most that all pieces of one listing took together
# A line that does not fit ends it with a status other than 0.
FNR == NR {
    if ($1 != "each") next
    counted[++calls] = $3
    name[calls] = $2
    next
}
$1 == "#" { input = substr($0, 3); delete listed; next }
$1 == "=" { next }
$1 == "end" { ended = 1; next }
{
    at++
    if ($1 != name[at] || $3 >= 6144) { print "call " at ": " $0 " is not " name[at] > "/dev/stderr"; failed = 1; exit 1 }
    key = $1 " " $2
    if (!(key in most)) order[++kinds] = key
    if (!(key in most) || counted[at] > most[key]) { most[key] = counted[at]; found[key] = input }
    if ($3 > deepest[key]) deepest[key] = $3
    if ($1 != "dullavane_listing") next
    listed[$2] += counted[at]
    if (listed[$2] > whole[$2]) { whole[$2] = listed[$2]; of[$2] = input }
}
END {
    if (failed) exit 1
    if (!ended || at != calls) { print at " calls said, " calls " counted" > "/dev/stderr"; exit 1 }
    for (i = 1; i <= kinds; i++) printf "call %s|%.0f|%d|%s\n", order[i], most[order[i]], deepest[order[i]], found[order[i]]
    for (kind in whole) printf "whole %s|%.0f|%s\n", kind, whole[kind], of[kind]
}
