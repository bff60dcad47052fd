"""The counts that a run of the driver left: FOLDER/MACHINE.calls and FOLDER/MACHINE.counts."""
import sys

STRINGS = 75 * 4
KINDS = ["string 1", "string 2", "string 3", "string 4", "string 5", "an even string", "an odd string", "string 14 of frame 5"]

# the calls of lent.c by label: what each is called, and its aim in M0 cycles
LENT = {
    "lent:fresh": ("`spineyarrow_fresh`", 0),
    "lent:reset": ("`spineyarrow_reset`", 0),
    "lent:summary": ("`spineyarrow_summary`", 600),
    "lent:health": ("`spineyarrow_health`, of a known satellite", 600),
    "lent:tallies": ("`spineyarrow_tallies`", 600),
    "lent:record": ("`spineyarrow_record`", 9000),
    "lent:entry": ("`spineyarrow_entry`", 5000),
    "lent:book": ("`spineyarrow_book`", 0),
    "lent:join-empty": ("`spineyarrow_join`, of a full book into an empty one", 0),
    "lent:join-same": ("`spineyarrow_join`, of the book that is there", 0),
    "lent:navigation": ("`spineyarrow_navigation`", 0),
}


def calls(folder, machine):
    """For each label the mean instructions and cycles, with what an empty call costs taken off, and the deepest stack."""
    said = [line.split() for line in open(f"{folder}/{machine}.calls")]
    if any(words[0] == "DIFFERENT" for words in said):
        sys.exit(f"{machine}: a lent station and one by value answer differently")
    if any(words[0] == "REFUSED" for words in said):
        sys.exit(f"{machine}: a lent call that the sample allows is refused")
    counts = [list(map(int, line.split())) for line in open(f"{folder}/{machine}.counts") if line[0] != "t"]
    empty, table = counts[0], {}
    for (label, stack), (instructions, cycles) in list(zip(said, counts))[1:]:
        table.setdefault(label, []).append((instructions - empty[0], cycles - empty[1], int(stack)))
    table = {k: (sum(a for a, _, _ in v) / len(v), sum(b for _, b, _ in v) / len(v), max(c for _, _, c in v)) for k, v in table.items()}
    without(table, "lent:join-empty", "emptied")
    return table


def without(table, label, part):
    """A call that was measured with a part of the driver's own, which is taken off."""
    instructions, cycles, _ = table.pop(part)
    table[label] = (table[label][0] - instructions, table[label][1] - cycles, table[label][2])
