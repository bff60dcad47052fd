# host/spineyarrow.h: the calls for C, from the sources of the crates that export them, and the signed words, from the table of units.
# Comes in: crates/scaled/src/table.rt, and then for each archive a line `archive NAME ABOUT` before its sources. STRUCTS has what stands between them.

BEGIN {
    where["One"] = "string 1"; where["Two"] = "string 2"; where["Three"] = "string 3"; where["Four"] = "string 4"; where["Five"] = "string 5"
    where["Even"] = "even strings 6 to 14"; where["Odd"] = "odd strings 7 to 15"; where["Fourteen"] = "string 14 of frame 5"
}

function strip(s) { gsub(/^[ \t]+|[ \t]+$/, "", s); return s }

# a Rattle parameter `name: type` as C's; a slice is a pointer and then a length
function in_c(name, type,    parts) {
    if (type == "&[u8]") return "const uint8_t *" name ", uint64_t " name "_length"
    if (type == "&mut [u8]") return "uint8_t *" name ", uint64_t " name "_room"
    if (type == "&mut Station") return "void *station"
    if (type == "&Station") return "const void *station"
    if (type == "&mut f64") return "double *" name
    if (type == "&mut u32") return "uint32_t *" name
    if (type ~ /^&mut \[(u32|u64|i32)\]$/) {
        split(type, parts, /[][ ]+/)
        return (parts[2] == "i32" ? "int32_t" : number(parts[2])) " *" name ", uint64_t " name "_room"
    }
    if (type ~ /^&mut \[(i32|f64); [0-9]+\]$/) {
        split(type, parts, /[][; ]+/)
        return (parts[2] == "i32" ? "int32_t " : "double ") name "[" parts[3] "]"
    }
    return number(type) " " name
}

function number(type) {
    if (type == "u8") return "uint8_t"
    if (type == "u32") return "uint32_t"
    if (type == "u64" || type == "usize") return "uint64_t"
    print "draw header: no C for the type " type > "/dev/stderr"
    failed = 1
    exit 1
}

# the parameters between the parentheses, of which an array's type has none
function parameters(s,    n, i, list, at, out) {
    n = split(s, list, ",")
    for (i = 1; i <= n; i++) {
        if (strip(list[i]) == "") continue
        at = index(list[i], ":")
        out = out (out == "" ? "" : ", ") in_c(strip(substr(list[i], 1, at - 1)), strip(substr(list[i], at + 1)))
    }
    return out
}

function head() {
    print "/* Spineyarrow for a host in C. Made by `tools/draw header` from the sources of the crates: nothing else checks a C declaration against"
    print "   them, so do not edit it by hand."
    print ""
    print "   Calls take any bytes and any length, and refuse what they cannot take. An answer is numbers in one, each in a byte, the first in the lowest:"
    print "   0 where the call is taken, or the number that says no. A refusal leaves every output as it was."
    print ""
    print "   What the caller owes to every call: a pointer points to as many elements as are said with it, or to one; a room is the number of elements of"
    print "   its output; a station is SPINEYARROW_STATION_BYTES bytes, aligned; of what is handed over nothing overlaps what is written; and one call is made"
    print "   at a time on one station. */"
    print "#ifndef SPINEYARROW_H"
    print "#define SPINEYARROW_H"
    print ""
    print "#include <stddef.h>"
    print "#include <stdint.h>"
    print ""
    print "#ifdef __cplusplus"
    print "extern \"C\" {"
    print "#endif"
    print ""
    print "/* a plain string: bit 85 is the top bit of the first byte; the last three bits of the eleventh are padding, and 0 */"
    print "enum { SPINEYARROW_STRING_BYTES = 11 };"
    print ""
    print "/* the signed words by number, as spineyarrow_word takes them: the unit of each, and its dimension */"
    print "enum spineyarrow_word_number {"
}

/^    SignedWord\(/ {
    if (!words++) head()
    split($0, side, /\), \/\/ /)
    split(side[1], row, /[(,:]+ */)
    comma = match(side[2], /, [^,]*$/)
    name = toupper(substr(side[2], 1, comma - 1))
    gsub(/ /, "_", name)
    printf "    SPINEYARROW_%s = %d, /* 2^-%d %s; %s */\n", name, words, row[5], substr(side[2], comma + 2), where[row[3]]
    next
}

$1 == "archive" {
    if (!parts++) print "    SPINEYARROW_WORDS = " words "\n};\n" ENVIRON["STRUCTS"]
    about = $0
    sub(/^archive [^ ]+ /, "", about)
    printf "\n/* ==== lib%s.a (tools/staticlib %s): %s */\n", $2, $2, about
    next
}

# the comment above a call, and then the call up to where its contract begins
/^\/\/ / { comment = comment (comment == "" ? "" : "\n   ") substr($0, 4); next }
/^#\[unsafe\(no_mangle\)\]/ { next }
/^pub extern "C" fn / { call = ""; inside = 1 }
inside {
    if ($0 ~ /^ +ensures/ || $0 ~ /^\{/) {
        inside = 0
        open = index(call, "("); close_at = match(call, /\) -> /)
        result = close_at ? number(strip(substr(call, close_at + 5))) : "void"
        if (!close_at) close_at = match(call, /\) $/)
        name = substr(call, 19, open - 19)
        printf "\n/* %s */\n%s %s(%s);\n", comment, result, name, parameters(substr(call, open + 1, close_at - open - 1))
        comment = ""
    } else {
        call = call strip($0) " "
    }
    next
}
{ comment = "" }

END {
    if (failed) exit 1
    print ""
    print "#ifdef __cplusplus"
    print "}"
    print "#endif"
    print ""
    print "#endif"
}
