#!/usr/bin/env python3
"""For turns.sh.

turns.py place OBJECT LAYOUT   a linker script that lets each function of an object begin 0, 16, 32 or 48 bytes past a multiple of 64, by
                               the number of the layout
turns.py rows FOLDER           by row of the benchmark the time before and now and their ratio, in the best layout and in the middle of
                               all, and the ratio of the first yardstick's best times, which tells the noise: it did not change
"""
import glob
import random
import re
import statistics
import subprocess
import sys

# Name, form or way or size, and the times of the first yardstick and of the library. Most have two counts between them.
CALLS = re.compile(r"^(.{28}) *(nest|flat|there|back) +\d+ +\d+ +([\d.]+) +[\d.]+ +([\d.]+) ")
GROWTH = re.compile(r"^(\S.{24,28}?) +(\d+) +([\d.]+) +[\d.]+ +([\d.]+) ")
PARTS = {"Steps": CALLS, "One call": CALLS, "Feeds": CALLS, "Channels": CALLS, "Growth": GROWTH, "Columns": CALLS}


def place(path, layout):
    listed = subprocess.run(["objdump", "-h", path], capture_output=True, text=True, check=True).stdout
    functions = [line.split()[1] for line in listed.splitlines() if re.match(r"^ +\d+ \.text\.", line)]
    drawn = random.Random(layout)
    print("SECTIONS { .text : {")
    for name in functions:
        print(f". = ALIGN(64); . += {16 * drawn.randrange(4)}; *({name.replace(':', '?')})")
    print("} }")


def read(path):
    """The times of the first yardstick and of the library by row."""
    found = {}
    part = ""
    for line in open(path, encoding="utf-8"):
        if line.strip() in PARTS:
            part = line.strip()
            continue
        row = PARTS[part].match(line) if part else None
        if row:
            found[part, row[1].strip(), row[2]] = (float(row[3]), float(row[4]))
    return found


def rows(folder):
    runs = {name: [read(path) for path in glob.glob(f"{folder}/{name}-*.txt")] for name in ("before", "now")}
    common = [key for key in runs["before"][0] if key in runs["now"][0]]
    ratios = {min: {}, statistics.median: {}}
    print(f"{'':34} {'best before':>11} {'now':>9} {'':7} {'middle':>9} {'now':>9} {'':7} yardstick")
    for key in common:
        shown = f"{key[1]:28} {key[2]:>5} "
        for of in ratios:
            times = [of([run[key][1] for run in runs[name]]) for name in ("before", "now")]
            ratios[of][key] = times[1] / times[0]
            shown += f" {times[0]:10.1f} {times[1]:9.1f} {ratios[of][key]:7.3f}"
        yardstick = [min(run[key][0] for run in runs[name]) for name in ("before", "now")]
        print(f"{shown} {yardstick[1] / yardstick[0]:7.3f}")
    for parts in (("Steps", "One call"), ("Feeds",), ("Channels",), ("Growth",), ("Columns",)):
        for of, name in ((min, "best layout"), (statistics.median, "middle of the layouts")):
            values = [ratios[of][key] for key in common if key[0] in parts]
            if values:
                print(f"{', '.join(parts)}, {name}: {len(values)} rows, {min(values):.3f} to {max(values):.3f}, {statistics.median(values):.3f} in the middle")


if sys.argv[1] == "place":
    place(sys.argv[2], int(sys.argv[3]))
else:
    rows(sys.argv[2])
