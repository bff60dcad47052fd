# Reads requests, as bytes in decimal, and from the next file the line that answers each (second/README.md has
# the table of both). Tells what the station said of its channels, its book and the book's summary: each word raw, and
# beside it what that is by the units of the ICD's Tables 4.5 and 4.9.

BEGIN {
    OFS = ", "
    words = split("P1 tk vx ax x  B P2 tb vy ay y  P3 gamma P l vz az z  tau dtau E P4 FT NT n M", name, " ")
    IMMEDIATE = 8; ENTRY = 9; TALLIES = 10; HEALTH = 11; SUMMARY = 14
    FOR_ANY_CARD = 32
    card_name[1] = "card one"; card_name[2] = "card two"
    causes = split("SHAPE,DAMAGED (31),DAMAGED (32),DAMAGED (33),IDLE,NUMBER,EARLY,STALE,OFF BEAT,CONFLICT", cause, ",")
    judged[1] = "usable"; judged[2] = "not usable"
    split("January February March April May June July August September October November December", month, " ")
    split("31 28 31 30 31 30 31 31 30 31 30 31", days, " ")
}

FNR == NR { for (i = 1; i <= NF; i++) byte[size++] = $i; next }
{ answer[++answers] = $0 }

END {
    for (at = 0; at < size; at += 3 + byte[at + 1] * 256 + byte[at + 2]) ask(byte[at], at + 3, answer[++requests])
    if (answers != requests) {
        print requests " requests, and " answers + 0 " answers" > "/dev/stderr"
        exit 1
    }
    for (i = 1; i <= asked; i++) tell_channel(channels[i])
    for (i = 1; i <= shut; i++) print refused[i]
    if (shut) print ""
    print "The book:\n"
    for (i = 1; i <= pages; i++) tell_slot(slots[i])
    if (summary) tell_summary()
}

# A request of any card has the card before what it is about; others speak for card one.
function ask(op, first, line) {
    if (op > FOR_ANY_CARD) hear(byte[first], op - FOR_ANY_CARD, byte[first + 1], line)
    else hear(1, op, byte[first], line)
}

# A query's answer is kept by what it is about, a channel or a slot. A channel has one card.
function hear(card, op, about, line) {
    if (op == IMMEDIATE && line == "no 15") {
        refused[++shut] = card_name[card] " asks for the record of channel " about ": 15 OWNER, the channel is the other card's"
        return
    }
    if (op == IMMEDIATE) { channels[++asked] = about; owner[about] = card; record[about] = line }
    if (op == TALLIES) tallies[about] = line
    if (op == HEALTH) health[about] = line
    if (op == ENTRY) { slots[++pages] = about; entry[about] = line }
    if (op == SUMMARY) summary = line
}

function tell_channel(channel,    t) {
    split(tallies[channel], t, " ")
    printf "%s, channel %d: %d offered, %d clean, %d repaired, %d refused\n", card_name[owner[channel]], channel, t[2], t[3], t[4], t[5]
    tell_causes(t)
    if (has_record(channel)) tell_record()
    else print "  no record yet"
    tell_health(channel)
    print ""
}

# Why strings were refused: after ok and the four come the tallies of the causes.
function tell_causes(t,    k, told) {
    for (k = 1; k <= causes; k++) if (t[5 + k] > 0) told = told (told ? OFS : "") cause[k] " " t[5 + k]
    if (told) print "  refused: " told
}

# Whether there is a record: then w has its words by their names. Behind them stands the start of its frame.
function has_record(channel,    value, k) {
    if (split(record[channel], value, " ") != 2 + words) return 0
    for (k = 1; k <= words; k++) w[name[k]] = value[1 + k]
    return 1
}

# tk is hour x 128 + minute x 2 + half minute, tb counts quarters of an hour.
function tell_record() {
    printf "  satellite n %d, day NT %d, tk = %d (%s:%02d), tb = %d (%s)\n", w["n"], w["NT"],
        w["tk"], clock(int(w["tk"] / 128), int(w["tk"] / 2) % 64), w["tk"] % 2 * 30,
        w["tb"], clock(int(w["tb"] / 4), w["tb"] % 4 * 15)
    tell_axis("x")
    tell_axis("y")
    tell_axis("z")
    print "  " word("tau", w["tau"], 30, "%.10f s"), word("delta tau", w["dtau"], 30, "%.10f s"), word("gamma", w["gamma"], 40, "%.2e")
    printf "  E = %d, FT = %d, M = %d, P1 = %d, P2 = %d, P3 = %d, P4 = %d, P = %d, B = %d, l = %d\n",
        w["E"], w["FT"], w["M"], w["P1"], w["P2"], w["P3"], w["P4"], w["P"], w["B"], w["l"]
}

function clock(hour, minute) { return sprintf("%02d:%02d", hour, minute) }

function tell_axis(a) {
    printf "  %s = %9d (%11.4f km), velocity %8d (%10.7f km/s), acceleration %3d (%9.2e km/s^2)\n", a, w[a], w[a] / 2 ^ 11,
        w["v" a], w["v" a] / 2 ^ 20, w["a" a], w["a" a] / 2 ^ 30
}

# Beside the station's answer stands what decides it: B, l and M of the record, C of the book's entry for its n; and where
# it is not usable, which of them says so.
function tell_health(channel,    h) {
    split(health[channel], h, " ")
    if (h[2] in judged)
        printf "  health: %s%s (top bit of B %d, M %d%d, l %d%s; in the book slot %d has C = %d)\n", judged[h[2]], against(),
            int(w["B"] / 4), int(w["M"] / 2), w["M"] % 2, w["l"], w["M"] ? "" : " reserved", w["n"], good(w["n"])
    else print "  health: unknown (no record, or no entry for its n)"
}

# What speaks against a satellite. With M 00 bit 65 of string 3 is no l.
function against(    why) {
    if (w["B"] >= 4) why = why ", B is raised"
    if (w["M"] && w["l"]) why = why ", l is raised"
    if (!good(w["n"])) why = why ", C is 0"
    sub(/^, /, ": ", why)
    return why
}

function tell_slot(slot,    e, n4, na) {
    if (split(entry[slot], e, " ") != 4) {
        printf "slot %2d: empty\n", slot
        return
    }
    n4 = int((e[2] - 1) / 1461) + 1
    na = e[2] - 1461 * (n4 - 1)
    printf "slot %2d: day %d, %s (N4 %d, NA %d), carrier H = %d, %s by the almanac (C = %d)\n",
        slot, e[2], date(n4, na), n4, na, carrier(e[4]), judged[2 - good(slot)], good(slot)
    tell_entry(e[3], e[4])
}

# The panel's line. Of an empty book both days are 0.
function tell_summary(    s) {
    split(summary, s, " ")
    if (s[2] == 0) print "\nThe panel: no slot is filled."
    else printf "\nThe panel: %d slots are filled, the oldest day is %s, the newest %s.\n", s[2], day_told(s[3]), day_told(s[4])
}

function day_told(day,    n4) {
    n4 = int((day - 1) / 1461) + 1
    return day " (" date(n4, day - 1461 * (n4 - 1)) ")"
}

# C, bit 80, is the first of an entry's even half.
function good(slot,    e) {
    split(entry[slot], e, " ")
    return even(e[3], 80, 80)
}

# The words of the two halves, Table 4.11.
function tell_entry(e, o) {
    print "  " word("tau A", signed(even(e, 72, 63), 10), 18, "%.6f s"),
        word("lambda", signed(even(e, 62, 42), 21), 20, "%.6f semicircles"),
        word("delta i", signed(even(e, 41, 24), 18), 20, "%.6f semicircles"), word("epsilon", even(e, 23, 9), 20, "%.6f")
    print "  " word("omega", signed(odd(o, 80, 65), 16), 15, "%.5f semicircles"), word("t lambda", odd(o, 64, 44), 5, "%.3f s"),
        word("delta T", signed(odd(o, 43, 22), 22), 9, "%.3f s/orbit"),
        word("its rate", signed(odd(o, 21, 15), 7), 14, "%.5f s/orbit^2")
}

# A word of 2^-power a unit, raw and as that.
function word(name, raw, power, form) { return sprintf("%s = %d (" form ")", name, raw, raw / 2 ^ power) }

# H, bits 14 to 10; 25 to 31 mean -7 to -1.
function carrier(o,    h) {
    h = odd(o, 14, 10)
    return h < 25 ? h : h - 32
}

# NA 1 of N4 1 is 1 January 1996, Moscow time; each four years begin with a first of January.
function date(n4, day,    year, m) {
    year = 1996 + 4 * (n4 - 1)
    for (m = 1; day > in_month(year, m); m = m % 12 + 1) {
        day -= in_month(year, m)
        if (m == 12) year++
    }
    return day " " month[m] " " year
}

function in_month(year, m) { return days[m] + (m == 2 && year % 4 == 0 && (year % 100 != 0 || year % 400 == 0)) }

# Sign and magnitude in so many bits.
function signed(value, width) { return value < 2 ^ (width - 1) ? value : 2 ^ (width - 1) - value }

# A word by its top and its low bit: the even half is bits 80 to 9, the odd half 80 to 10.
function even(hex, top, low) { return bits(hex, 81 - top, 81 - low) }
function odd(hex, top, low) { return bits(hex, 82 - top, 82 - low) }

# The number in bits from..to of 18 hex digits; bit 1 is the highest, 72 the lowest.
function bits(hex, from, to,    digit, value) {
    for (; from <= to; from++) {
        digit = index("0123456789abcdef", substr(hex, int((from + 3) / 4), 1)) - 1
        value = value * 2 + int(digit / 2 ^ ((72 - from) % 4)) % 2
    }
    return value
}
