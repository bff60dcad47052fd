# the structs of a lent station for C, and the numbers that say no, from the sources of the crates. Where each field lies is reckoned by the rules of C, and
# asserted by the compiler that reads the header.
# Comes in: the sources of the crates that have the numbers and the structs.

BEGIN {
    c["u8"] = "uint8_t"; size["u8"] = 1; c["u16"] = "uint16_t"; size["u16"] = 2; c["u32"] = "uint32_t"; size["u32"] = 4
    c["u64"] = "uint64_t"; size["u64"] = 8
    for (t in size) align[t] = size[t]
}

function strip(s) { gsub(/^[ \t]+|[ \t]+$/, "", s); return s }
function up(n, to) { return int((n + to - 1) / to) * to }
function fail(s) { print "draw header: " s > "/dev/stderr"; failed = 1; exit 1 }

# a number, a constant of the sources, or a product of these
function worth(s,    n, list, i, product) {
    sub(/;.*/, "", s)
    n = split(s, list, " [*] ")
    product = 1
    for (i = 1; i <= n; i++) product *= (list[i] in constant) ? constant[list[i]] : list[i] + 0
    return product
}

/^pub const [A-Z_]+: usize = / { constant[substr($3, 1, length($3) - 1)] = worth(substr($0, index($0, "= ") + 2)); next }

# OffBeat is OFF_BEAT
function in_capitals(s) { gsub(/[A-Z]/, "_&", s); return toupper(substr(s, 2)) }
/^        (Err\()?(Refusal|Damage|Why|Unwritten)::[A-Za-z(_)]+ => [0-9]+,/ {
    word = $1; sub(/^.*::/, "", word); sub(/[()].*/, "", word)
    no[$3 + 0] = ($1 ~ /^Damage/ ? "DAMAGED_" : "") in_capitals(word)
    next
}

/^\/\/ / { comment = comment (comment == "" ? "" : "\n   ") substr($0, 4); next }
/^#\[repr\(C\)\]/ { marked = 1; next }
/^#\[derive/ { next }
marked && /^pub struct / { name = $3; marked = 0; inside = 1; about[name] = comment; comment = ""; next }
inside && /^}/ { inside = 0; next }
inside && /^    pub / {
    fields[name]++
    field[name, fields[name]] = substr($2, 1, length($2) - 1)
    type = strip(substr($0, index($0, ": ") + 2)); sub(/,$/, "", type)
    if (match(type, /^\[.*; .*\]$/)) {
        split(substr(type, 2, length(type) - 2), parts, "; ")
        type = parts[1]; many[name, fields[name]] = parts[2]
    }
    of_type[name, fields[name]] = type
    next
}
{ comment = "" }

# a struct after those that it holds
function emit(name,    i, t, f, n, at, widest, body, asserts) {
    if (!(name in fields)) fail("no struct " name)
    for (i = 1; i <= fields[name]; i++) if (!(of_type[name, i] in size)) emit(of_type[name, i])
    c[name] = "struct spineyarrow_" tolower(name)
    widest = 1
    for (i = 1; i <= fields[name]; i++) {
        t = of_type[name, i]; f = field[name, i]
        n = (name, i) in many ? worth(many[name, i]) : 0
        at = up(at, align[t])
        if (align[t] > widest) widest = align[t]
        body = body "    " c[t] " " f (n ? "[" n "]" : "") ";\n"
        asserts = asserts sprintf("typedef char spineyarrow_%s_%s_lies[offsetof(%s, %s) == %d ? 1 : -1];\n", tolower(name), f, c[name], f, at)
        at += size[t] * (n ? n : 1)
    }
    size[name] = up(at, widest); align[name] = widest
    printf "\n%s%s {\n%s};\n%s", about[name] == "" ? "" : "/* " about[name] " */\n", c[name], body, asserts
    printf "typedef char spineyarrow_%s_size[sizeof(%s) == %d ? 1 : -1];\n", tolower(name), c[name], size[name]
}

END {
    if (failed) exit 1
    for (k = 1; k < 256; k++) if (k in no) numbers = numbers (numbers == "" ? "" : ",\n") sprintf("    SPINEYARROW_NO_%s = %d", no[k], k)
    print "\n/* the numbers that say no, in the lowest byte of an answer */"
    printf "enum spineyarrow_no {\n    SPINEYARROW_TAKEN = 0,\n%s\n", numbers
    print "};"
    print "\n/* A lent station, as it lies in the host's memory, to be read in place between two calls by a panel or a debugger, and written by the calls alone."
    print "   Numbers stand in the machine's own order of bytes. All zero is a fresh station. */"
    emit("Station")
    printf "\nenum { SPINEYARROW_STATION_BYTES = %d, SPINEYARROW_STATION_ALIGNMENT = %d };\n", size["Station"], align["Station"]
}
