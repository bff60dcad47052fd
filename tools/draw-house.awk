# draw-house.awk: the crates in their groups and what each uses, from lines of "group HEADING", "crate CRATE SENTENCE" and
# "uses CRATE CRATE". A use that follows from others is left out.
#
# Boxes stand in rows of up to four columns, a crate in a row below those that it uses; a group begins with a row that holds
# its heading. Lines run only between rows and in the gutters between columns. All uses of one crate are one line with
# one head: it leaves the crate's box below, goes along the space under it, down a gutter where users stand further
# below, and along the space above each of those. In a space or a gutter two lines that would meet have lanes of their own.
BEGIN {
    most = 4; wide = 226; letters = 36; pitch = 8; margin = 10
    colours = split("#3b6ea5 #a0522d #3f7f5f #7d5ba6 #a8456b #8a7420 #4a5560", colour, " ")
}

$1 == "group" { group = $0; sub(/^group /, "", group) }
$1 == "crate" {
    name[++n] = $2; heading[n] = group; number[$2] = n
    sentence[n] = $0; sub(/^crate [^ ]+ ?/, "", sentence[n])
}
$1 == "uses" { from[++edges] = number[$2]; to[edges] = number[$3] }

END {
    leave_out()
    for (i = 1; i <= n; i++) place(i)
    for (r = 1; r <= rows; r++) line_up(r)
    for (b = 1; b <= n; b++) if (users[b]) choose_gutter(b)
    measure_across()
    for (b = 1; b <= n; b++) if (users[b]) run_lines(b)
    measure_down()
    print across, down
    draw_groups()
    for (b = 1; b <= n; b++) if (users[b]) draw_lines(b)
    for (i = 1; i <= n; i++) draw_crate(i)
    text("note", margin + 4, down - 22, "A line leads from the crates below it to the one that they use, at its arrow; what meets in a dot is one line.")
    text("note", margin + 4, down - 8, "A use that follows from others is left out.")
}

# a crate comes after all that it uses, so what those reach is known by then
function leave_out(    e, i) {
    for (e = 1; e <= edges; e++) {
        reaches[from[e], to[e]] = 1
        for (i = 1; i <= n; i++) if (reaches[to[e], i]) { reaches[from[e], i] = 1; follows[from[e], i] = 1 }
    }
    for (e = 1; e <= edges; e++) if (!follows[from[e], to[e]]) {
        user[to[e], ++users[to[e]]] = from[e]
        used[from[e], ++uses[from[e]]] = to[e]
    }
}

# ---- rows and columns

# below all that it uses of its group
function place(i,    k, r) {
    if (i == 1 || heading[i] != heading[i - 1]) { title[++rows] = heading[i]; first = rows }
    r = first + 1
    for (k = 1; k <= uses[i]; k++) if (row[used[i, k]] >= r) r = row[used[i, k]] + 1
    while (filled[r] == most) r++
    row[i] = r; in_row[r, ++filled[r]] = i
    if (r > rows) rows = r
    lines_of[i] = wrap(i, letters)
    for (k = 1; k < letters && wrap(i, k) > lines_of[i]; k++);
    if (lines_of[i] > tallest[r]) tallest[r] = lines_of[i]
}

# A row in the order of crates.txt, a crate below one that it uses where the next row up has one and there is room.
function line_up(r,    k, j, i, c, before) {
    for (j = 1; j <= filled[r]; j++) {
        i = in_row[r, j]
        c = before + 1
        for (k = 1; k <= uses[i]; k++) if (row[used[i, k]] == r - 1 && col[used[i, k]] > c) { c = col[used[i, k]]; break }
        if (c > most - filled[r] + j) c = most - filled[r] + j
        col[i] = before = c
        if (c > columns) columns = c
    }
}

# The sentence in lines of at most so many letters, and how many they are. The fewest that do with no more lines make
# lines of like length.
function wrap(i, limit,    word, k, m, lines) {
    m = split(sentence[i], word, " ")
    for (k = 1; k <= m; k++) {
        if (k > 1 && length(part[i, lines] " " word[k]) <= limit) part[i, lines] = part[i, lines] " " word[k]
        else part[i, ++lines] = word[k]
    }
    return lines + 0
}

# ---- gutters: 0 is left of the first column, 1 right of it

# Whether a crate's users are all in the next row; else its line goes down the gutter that makes the shortest way.
function choose_gutter(b,    k, a, g, way, least) {
    for (k = 1; k <= users[b]; k++) { a = user[b, k]; if (row[a] > lowest[b]) lowest[b] = row[a] }
    gutter[b] = -1
    if (lowest[b] == row[b] + 1) return
    for (g = 0; g <= columns; g++) {
        way = distance(g, col[b])
        for (k = 1; k <= users[b]; k++) if (row[user[b, k]] > row[b] + 1) way += distance(g, col[user[b, k]])
        way += lanes_at["gutter", g] / 4
        if (gutter[b] < 0 || way < least) { gutter[b] = g; least = way }
    }
    lane_in["gutter", b] = lane("gutter", gutter[b], row[b], lowest[b] - 1)
}

function distance(g, c) { return g < c ? c - g - .5 : g - c + .5 }

# The first lane of a space in which nothing stands from low to high, both included.
function lane(kind, where, low, high,    l, k) {
    for (l = 1; ; l++) {
        for (k = 1; k <= laid[kind, where, l]; k++)
            if (low <= ends[kind, where, l, k] && begins[kind, where, l, k] <= high) break
        if (k > laid[kind, where, l]) break
    }
    laid[kind, where, l] = k; begins[kind, where, l, k] = low; ends[kind, where, l, k] = high
    if (l > lanes_at[kind, where]) lanes_at[kind, where] = l
    return l
}

function measure_across(    c) {
    across = margin
    for (c = 0; c <= columns; c++) {
        gutter_x[c] = across
        across += 18 + pitch * lanes_at["gutter", c]
        left[c + 1] = across
        if (c < columns) across += wide
    }
    across += margin
}

function trunk(b) { return gutter_x[gutter[b]] + 9 + pitch * (lane_in["gutter", b] - .5) }
function middle(i) { return left[col[i]] + wide / 2 }

# ---- the spaces between rows: space r is below row r

# Where the line of b enters the box of a: in the middle if it comes straight from above, and else beside it.
function enter(b, a,    source, side) {
    if (row[a] == row[b] + 1 && col[a] == col[b]) return middle(a)
    if (!((b, a) in entry)) {
        source = row[a] == row[b] + 1 ? middle(b) : trunk(b)
        side = source < middle(a) ? -1 : 1
        entry[b, a] = middle(a) + side * 16 * ++entries[a, side]
    }
    return entry[b, a]
}

# The line of b in each space that it runs along: from where to where.
function run_lines(b,    k, a, r) {
    if (gutter[b] >= 0) { stretch(b, row[b], middle(b)); stretch(b, row[b], trunk(b)) }
    for (k = 1; k <= users[b]; k++) {
        a = user[b, k]; r = row[a] - 1
        stretch(b, r, r == row[b] ? middle(b) : trunk(b))
        stretch(b, r, enter(b, a))
    }
    for (r = row[b]; r < lowest[b]; r++)
        if ((b, r) in low_x && low_x[b, r] < high_x[b, r])
            lane_in[r, b] = lane("space", r, low_x[b, r] - 6, high_x[b, r] + 6)
}

function stretch(b, r, x) {
    if (!((b, r) in low_x) || x < low_x[b, r]) low_x[b, r] = x
    if (!((b, r) in high_x) || x > high_x[b, r]) high_x[b, r] = x
}

function measure_down(    r) {
    down = margin
    for (r = 1; r <= rows; r++) {
        top[r] = down
        tall[r] = (r in title) ? 28 : 34 + 14 * tallest[r]
        down += tall[r] + space(r)
    }
    down += 34
}

function space(r) { return 24 + pitch * lanes_at["space", r] + ((r + 1) in title ? 14 : 0) }
function lane_y(b, r) { return top[r] + tall[r] + 14 + pitch * (lane_in[r, b] - .5) }

# ---- the picture

function text(class, x, y, words) {
    gsub(/&/, "\\&amp;", words)
    gsub(/</, "\\&lt;", words)
    printf "<text class=\"%s\" x=\"%d\" y=\"%d\">%s</text>\n", class, x, y, words
}

function draw_groups(    r, last) {
    for (r = 1; r <= rows; r++) if (r in title) {
        for (last = r + 1; last < rows && !((last + 1) in title); last++);
        printf "<rect class=\"group\" x=\"%d\" y=\"%d\" width=\"%d\" height=\"%d\" rx=\"8\"/>\n", margin, top[r],
            across - 2 * margin, top[last] + tall[last] + space(last) - (last < rows ? 8 : 0) - top[r]
        text("heading", left[1], top[r] + 21, title[r])
    }
}

function draw_crate(i,    x, y, k) {
    x = left[col[i]]; y = top[row[i]]
    printf "<rect class=\"crate\" x=\"%d\" y=\"%d\" width=\"%d\" height=\"%d\" rx=\"6\"/>\n", x, y, wide, tall[row[i]]
    text("name", x + wide / 2, y + 20, name[i])
    for (k = 1; k <= lines_of[i]; k++) text("about", x + wide / 2, y + 22 + 14 * k, part[i, k])
}

function segment(x, y, x2, y2) {
    printf "<path class=\"line\" stroke=\"%s\" d=\"M %.1f %.1f L %.1f %.1f\"/>\n", ink, x, y, x2, y2
}
function dot(x, y) { printf "<circle fill=\"%s\" cx=\"%.1f\" cy=\"%.1f\" r=\"2.6\"/>\n", ink, x, y }

# Where the line of b stands in space r: on its lane, or anywhere if it only goes straight through.
function level(b, r) { return (r, b) in lane_in ? lane_y(b, r) : top[r] + tall[r] + 14 }

function draw_lines(b,    k, a, r, x, y, bottom, ending) {
    ink = colour[++inks % colours + 1]
    x = middle(b); bottom = top[row[b]] + tall[row[b]]
    segment(x, bottom + 6, x, level(b, row[b]))
    printf "<path fill=\"%s\" d=\"M %.1f %.1f l -4.5 9 h 9 z\"/>\n", ink, x, bottom + 1
    for (r = row[b]; r < lowest[b]; r++)
        if ((r, b) in lane_in) segment(low_x[b, r], lane_y(b, r), high_x[b, r], lane_y(b, r))
    if (gutter[b] >= 0) segment(trunk(b), lane_y(b, row[b]), trunk(b), lane_y(b, lowest[b] - 1))
    for (k = 1; k <= users[b]; k++) {
        a = user[b, k]
        segment(enter(b, a), level(b, row[a] - 1), enter(b, a), top[row[a]])
    }
    draw_dots(b)
}

# A dot where three ways of a line meet.
function draw_dots(b,    r, k, a, ways, x, seen) {
    for (r = row[b]; r < lowest[b]; r++) if ((r, b) in lane_in) {
        split("", ways)
        if (r == row[b]) ways[middle(b)]++
        if (gutter[b] >= 0) ways[trunk(b)] += (r > row[b]) + (r < lowest[b] - 1)
        for (k = 1; k <= users[b]; k++) { a = user[b, k]; if (row[a] == r + 1) ways[enter(b, a)]++ }
        for (k = 1; k <= 2 + users[b]; k++) {
            x = k == 1 ? middle(b) : k == 2 ? (gutter[b] >= 0 ? trunk(b) : middle(b)) : enter(b, user[b, k - 2])
            if (!ways[x] || seen[r, x]++) continue
            if (ways[x] + (x > low_x[b, r]) + (x < high_x[b, r]) > 2) dot(x, lane_y(b, r))
        }
    }
}
