# The example book of 13 units, as the text that write_book reads: five minutes of an evening in which a large unit trips. Made up, in whole numbers, so that
# every awk prints the same. web/evening.book is what write_book makes of it:
#     awk -f web/evening.awk </dev/null | target/bin/write_book >web/evening.book
# Frequencies are in uHz, power in hundredths of a MW; who is who stands beside each unit.
BEGIN {
    billion = "000000000"
    print "settings 2500 10 25 2827518"
    mainland(); island()
    for (region = 0; region < 5; region++) print_region(region)

    quiet(); for (t = 1; t <= 75; t++) away[t] += need(t, 14)                                  # a battery that answers within seconds
    print_unit(3, 3, 0, 0, 0, 0)
    quiet(); for (t = 1; t <= 75; t++) away[t] -= need(t - 2, 25)                              # a battery that charges, and charges less
    print_unit(7, 2, 1, 4000, 4000, 0)
    gusts(900)                                                                                 # a wind farm
    print_unit(12, 1, 0, 8000, 9500, 0)
    gusts(320); print_unit(15, 3, 0, 5200, 5000, 5)                                            # three rows of another, dispatched as a group
    gusts(500); print_unit(16, 3, 0, 4100, 4100, 5)
    gusts(410); print_unit(17, 3, 0, 6300, 6000, 5)
    quiet(); for (t = 1; t <= 75; t++) away[t] += need(t - 5, 60) + swing(t, 12, 40)           # a steam unit, slow and with a swing
    print_unit(21, 1, 0, 30000, 31000, 0)
    quiet(); for (t = 20; t <= 75; t++) away[t] = t < 23 ? -9300 * (t - 19) : -28000           # the unit that trips at t = 20
    print_unit(22, 0, 0, 28000, 28000, 0)
    quiet(); for (t = 1; t <= 75; t++) away[t] += int((50000000 - other[t]) / 30)              # a water turbine on the island
    print_unit(30, 4, 0, 11000, 11000, 0)
    quiet(); for (t = 1; t <= 75; t++) away[t] -= cloud(t, 12, 6, 260) + cloud(t, 48, 9, 180)  # solar, two clouds
    print_unit(34, 0, 0, 12000, 9000, 0)
    gusts(150); bad[33] = 1                                                                    # a meter that missed a reading
    print_unit(41, 2, 0, 7000, 7000, 0)
    quiet(); for (t = 27; t <= 58; t++) away[t] -= 9000                                        # a smelter that sheds a potline
    print_unit(45, 1, 1, 40000, 40000, 0)
    quiet(); for (t = 1; t <= 75; t++) away[t] -= t <= 30 ? 80 * t : t <= 55 ? 2400 - 110 * (t - 30) : 0   # a gas turbine that starts late
    print_unit(52, 2, 0, 0, 6000, 0)

    print "requirement 1 15 0 1850 1234567 22000 15400"
    print "requirement 2 15 1 1400 456789 21000 6100"
    print "requirement 3 16 0 900 98765 5000 1900"
    print "requirement 4 16 1 900 87654 5000 1300"
}

# The mainland's frequency: quiet, a fall at t = 20, and the way back, a little too far. The island's: a slow wave of its own.
function mainland(    t, x) {
    split("-15000 -42000 -68000 -86000 -95000 -97000 -93000", fall, " ")
    for (t = 1; t <= 75; t++) {
        if (t < 20) x = swing(t, 9, 700) + noise(2500)
        else if (t < 27) x = fall[t - 19]
        else x += int((15000 - x) / 14) + noise(1200)
        main[t] = 50000000 + x
    }
}
function island(    t) { for (t = 1; t <= 75; t++) other[t] = 50000000 + swing(t, 23, 2600) + noise(3000) }

# need T PART: what one who answers the mainland's frequency at T gives; before the interval nothing.
function need(t, part) { return t < 1 ? 0 : int((50000000 - main[t]) / part) }
# A wave of straight lines, so many points up and so many down.
function swing(t, half, height) { return height * (t % (2 * half) < half ? t % half - int(half / 2) : half - int(half / 2) - t % half) }
function cloud(t, from, half, depth) { return t < from || t > from + 2 * half ? 0 : depth * (t <= from + half ? t - from : from + 2 * half - t) }
function noise(most) { seed = (seed ? seed : 2026) * 16807 % 2147483647; return seed % (2 * most + 1) - most }

# Deviations from the straight line that a unit is to follow: hardly any; or gusts, which come and go.
function quiet(    t) { for (t = 1; t <= 75; t++) away[t] = noise(12) }
function gusts(most,    t, x) { for (t = 1; t <= 75; t++) { x += noise(most) - int(x / 7); away[t] = x } }

function print_region(r,    t) {
    print "region 0", r < 4 ? 900 : -2000, r == 4 ? 110000 : 500000 + 90000 * r, -41 billion, -39 billion, -52 billion, -36 billion, -31 billion, -47 billion
    for (t = 1; t <= 75; t++) printf "%d%s", r < 4 ? main[t] : other[t], t < 75 ? " " : "\n"
}

# Of a group only the first unit, 15, has defaults.
function print_unit(number, region, kind, start, end, group,    t, size) {
    size = group && number != 15 ? 0 : 1000000 * (number + 5)
    print "unit " number, region, kind, start, end, group, -9 * size, -7 * size, -11 * size, -8 * size, -5 * size, -6 * size
    for (t = 1; t <= 75; t++) printf "%s%s", t in bad ? "-" : start + int((end - start) * t / 75) + away[t], t < 75 ? " " : "\n"
    delete bad
}
