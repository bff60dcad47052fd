# draw-layout.awk: the eight kinds of string as bit maps, drawn from the table that reader and encoder use
# (crates/layout/src/table.rt). A word is a box over its bits, "±" where it has a sign; bits 80 to 9 in no word are reserved.
BEGIN {
    bit = 13; left = 124; top = 28; row = 40; tall = 26
}

function x(i) { return left + (85 - i) * bit }

# the picture is kept until its size is known
function put(element) { picture = picture element "\n" }
function rect(class, at, line, w, h) { put(sprintf("<rect class=\"%s\" x=\"%d\" y=\"%d\" width=\"%d\" height=\"%d\"/>", class, at, line, w, h)) }
function text(class, at, line, words) { put(sprintf("<text class=\"%s\" x=\"%.1f\" y=\"%d\">%s</text>", class, at, line, words)) }

# how long a label is; "±" is one letter, where an awk may count two bytes
function letters(label) { gsub(/±/, "+", label); return length(label) }

function box(hi, lo, class, label,    w, mid, cut) {
    w = (hi - lo + 1) * bit
    rect(class, x(hi), y, w, tall)
    mid = x(hi) + w / 2
    if (label == "") return
    if (letters(label) * 6.2 + 3 <= w) { text("name", mid, y + 17, label); return }
    # a long name over a narrow word stands in two lines
    cut = index(label, " ")
    text("small", mid, y + (cut ? 11 : 16), cut ? substr(label, 1, cut - 1) : label)
    if (cut) text("small", mid, y + 21, substr(label, cut + 1))
}

# the next kind: its name, the idle bit, m, and the data still without words
function start(name) {
    kinds++
    y = top + (kinds - 1) * row
    text("kind", 8, y + 17, name)
    box(85, 85, "idle", "")
    put(sprintf("<text class=\"small\" transform=\"translate(%.1f %d) rotate(-90)\">idle</text>", x(85) + bit / 2 + 3, y + tall / 2))
    box(84, 81, "number", "m")
    box(80, 9, "reserved", "")
    box(8, 1, "check", "check bits")
}

function bits(line,    i) {
    for (i = 85; i >= 1; i--)
        if (i % 5 == 0 || i == 1 || i == 8 || i == 9) text("bit", x(i) + bit / 2, line, i)
}

# a sample of a box, and what it means
function legend(class, label, meaning) {
    rect(class, key, y, 26, 14)
    text("name", key + 13, y + 11, label)
    text("key", key + 32, y + 11, meaning)
    key += 50 + 6 * length(meaning)
}

# a kind's words are the arms of one function, and the comment above it is the kind's name: `0 => plain(78, 77), // P1`
/^\/\/ / { title = tolower(substr($0, 4, 1)) substr($0, 5); sub(/\.$/, "", title) }
/^fn [a-z0-9_]+\(j: usize\) -> Word/ { start(title) }
/^ *[0-9] => .*[0-9]+, [0-9]+\), \/\/ / {
    label = place = $0
    sub(/^.*\/\/ /, "", label)
    sub(/acceleration/, "accel.", label)
    match(place, /[0-9]+, [0-9]+\)/)
    split(substr(place, RSTART, RLENGTH), part, ", ")
    signed = index($0, "signed(")
    box(part[1] + 0, part[2] + 0, signed ? "signed" : "word", signed ? label " ±" : label)
}

END {
    bits(top - 8)
    bits(top + kinds * row - 4)
    y = top + kinds * row + 12
    key = left
    legend("word", "", "a plain word")
    legend("signed", "±", "a word with a sign: its top bit, 1 for minus")
    legend("reserved", "", "reserved")
    legend("number", "m", "the string's number in its frame")
    legend("check", "", "check bits")
    legend("idle", "", "bit 85, the idle bit, 0")
    print x(1) + bit + 10, y + 26
    printf "%s", picture
}
