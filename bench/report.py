"""report.py DIR: a table of the counts that bench/run left in DIR, each the mean over its samples."""
import pathlib
import re
import sys

from counts import KINDS, LENT, STRINGS, calls


def row(name, x86, m0, base=(0, 0, 0), base_m0=(0, 0, 0), share=1):
    print(
        f"| {name} | {(x86[0] - base[0]) / share:,.0f} | {(m0[0] - base_m0[0]) / share:,.0f}"
        f" | {(m0[1] - base_m0[1]) / share:,.0f} | {m0[2]:,} |"
    )


x86, m0 = calls(sys.argv[1], "x86"), calls(sys.argv[1], "m0")
print("| call, mean | x86-64 instructions | M0 instructions | M0 cycles | M0 stack, bytes |")
print("|---|---|---|---|---|")
for label in x86:
    name, _, which = label.replace("-", " ").partition(", ")
    if name in ("read", "encode"):
        which = KINDS[int(which) - 1]
    if name in ("fresh", "by value", "lent", "by value block", "lent block") or label in LENT:
        continue
    row(f"{name}, {which}" if which else name, x86[label], m0[label])
row("an offer, station lent", x86["lent"], m0["lent"], share=STRINGS)
row("an offer in a block, station lent", x86["lent-block"], m0["lent-block"], share=STRINGS)
row("an offer, station by value", x86["by-value"], m0["by-value"], x86["fresh"], m0["fresh"], STRINGS)
row("an offer in a block, station by value", x86["by-value-block"], m0["by-value-block"], x86["fresh"], m0["fresh"], STRINGS)
STATION_H = (pathlib.Path(__file__).parent / "station.h").read_text()
ROWS, ROW = (int(re.search(rf"^#define {name} (\d+)", STATION_H, re.M)[1]) for name in ("ROWS", "ROW"))
STATION = ROWS * ROW + 24 * 24 + 16
print(f"\nMemory of a program with one station on the M0, bytes: lent {STATION + m0['lent'][2]:,}"
      f" ({STATION:,} resident and {m0['lent'][2]:,} of stack), in blocks {STATION + m0['lent-block'][2]:,}, by value {m0['by-value'][2]:,} of stack")

STACK = 3072  # what a call on a lent station may take
print("\n| call on a lent station, mean | x86-64 instructions | M0 instructions | M0 cycles | aim | M0 stack, bytes |")
print("|---|---|---|---|---|---|")
for label, (name, aim) in LENT.items():
    print(f"| {name} | {x86[label][0]:,.0f} | {m0[label][0]:,.0f} | {m0[label][1]:,.0f} | {f'{aim:,}' if aim else ''} | {m0[label][2]:,} |")
deepest, name = max((m0[label][2], label) for label in m0 if label.startswith("lent"))
print(f"\nThe deepest stack of a call on a lent station, bytes: {deepest:,}, of {name}; aim {STACK:,}")
