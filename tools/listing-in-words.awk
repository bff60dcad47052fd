# Reads the lines of the listing: prints the first of them with their meaning, then counts them all.

BEGIN {
    shown = 30
    name[1] = "CHANNEL"; why[1] = "channel above 47"
    name[15] = "OWNER"; why[15] = "the channel is the other card's"
    name[2] = "SHAPE"; why[2] = "padding not 0"
    name[31] = "DAMAGED, no sum set but C"; why[31] = "bit 8 wrong, or more bits that cancel in the sums"
    name[32] = "DAMAGED, an even number of wrong bits"; why[32] = "almost always two"
    name[33] = "DAMAGED, a place above 85"; why[33] = "at least three wrong bits"
    name[4] = "IDLE"; why[4] = "bit 85 is 1"
    name[5] = "NUMBER"; why[5] = "m = 0"
    name[6] = "EARLY"; why[6] = "epoch below m-1"
    name[7] = "STALE"; why[7] = "start before the held start"
    name[8] = "OFF BEAT"; why[8] = "start 1..14 after the held start"
    name[9] = "CONFLICT"; why[9] = "same start and m held, with other data"
}

function meaning() {
    if ($3) return "refused: " name[$3]
    return "taken" ($4 ? ", bit " $4 " repaired" : "") ($6 ? ", inverted" : "")
}

NR == 1 { print "channel  epoch  number  bit   m  polarity" }
$1 == "short" { print; next }
NR <= shown { printf "%7d %6d %7d %4d %3d %9d   %s\n", $1, $2, $3, $4, $5, $6, meaning() }
!$3 { taken[$1]++; inverted[$1] += $6 }
$3 { refused[$3]++ }
!$3 && $4 { repaired++ }
!$3 && !$4 { clean++ }

END {
    if (NR > shown) printf "     .. %d more\n", NR - shown
    printf "\nOf all %d lines:\n", NR
    printf "%7d taken, clean\n", clean
    printf "%7d taken, one bit repaired\n", repaired
    split("1 15 2 31 32 33 4 5 6 7 8 9", order)
    for (k = 1; k in order; k++)
        if ((n = order[k]) in refused) printf "%7d refused, %d %s: %s\n", refused[n], n, name[n], why[n]
    printf "\n"
    for (c = 0; c <= 23; c++)
        if (inverted[c]) printf "channel %d hears inverted symbols: %d of the %d strings that it took\n", c, inverted[c], taken[c]
}
