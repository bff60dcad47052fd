"""variants.py FOLDER NAME..: a table of what the calls cost on the M0 in each variant that bench/unproved built, FOLDER/NAME."""
import sys

from counts import KINDS, LENT, STRINGS, calls

folder, names = sys.argv[1], sys.argv[2:]
tables = [calls(folder, name.replace(" ", "-")) for name in names]


def row(what, figure):
    print(f"| {what} | " + " | ".join(figure(t) for t in tables) + " |")


def between(t, call):
    """From the cheapest kind of string to the dearest."""
    cycles = [t[f"{call},-{k + 1}"][1] for k in range(len(KINDS))]
    return f"{min(cycles):,.0f} to {max(cycles):,.0f}"


print("| M0 cycles, mean | " + " | ".join(names) + " |")
print("|---|" + "---|" * len(names))
row("an offer, station lent", lambda t: f"{t['lent'][1] / STRINGS:,.0f}")
row("its deepest stack, bytes", lambda t: f"{t['lent'][2]:,}")
row("an offer in a block, station lent", lambda t: f"{t['lent-block'][1] / STRINGS:,.0f}")
row("its deepest stack, bytes", lambda t: f"{t['lent-block'][2]:,}")
row("check, clean", lambda t: f"{t['check,-clean'][1]:,.0f}")
row("a read", lambda t: between(t, "read"))
row("an encode", lambda t: between(t, "encode"))
for label, (name, _) in LENT.items():
    row(name, lambda t: f"{t[label][1]:,.0f}")
