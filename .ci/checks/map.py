"""Compares the map in docs/architecture.md with crates.txt.

The list and the table have the crates of crates.txt, the list with those that each names. In the picture are the crates that
the program calls, and each stands on rows below its own alone.
"""
import re
import sys

MAP = "docs/architecture.md"

with open("crates.txt", encoding="utf-8") as file:
    lines = [line.split("#")[0].split(":") for line in file]
all_below = {line[0].split()[0]: set(line[1].split()) for line in lines if len(line) == 2}
# Libraries of the toolchain are no crates of the map, and ak_base is left out since all name it.
named = {crate: {other for other in below if other in all_below} - {"ak_base"} for crate, below in all_below.items()}

with open(MAP, encoding="utf-8") as file:
    section = file.read().split("\n## The map\n")[1].split("\n## ")[0]
picture, listed = section.split("```")[1::2][:2]

drawn = {}
for line in listed.splitlines():
    words = re.findall(r"\w+", line)
    if re.match(r" {4}\w", line):
        crate = words.pop(0)
        drawn[crate] = set()
    if words:
        drawn[crate] |= set(words)

wrong = []
for crate in sorted({*named, *drawn}):
    here, there = sorted(drawn.get(crate, [])), sorted(named.get(crate, []))
    if here != there:
        wrong.append(f"{MAP} lists {crate} with {' '.join(here) or 'none'}, and crates.txt with {' '.join(there) or 'none'}")

described = set(re.findall(r"^\| `(\w+)` \|", section, re.M))
for crate in sorted(described ^ {*named}):
    wrong.append(f"{crate} isn't both in the table of {MAP} and in crates.txt")

rows = [re.match(r"(?: *ak\w+)*", line)[0].split() for line in picture.splitlines()]
row_of = {crate: row for row, crates in enumerate(rows) for crate in crates}
called = {"akl"}
while more := set().union(*(all_below[crate] & {*named} for crate in called)) - called:
    called |= more
for crate in sorted(called ^ {*row_of}):
    wrong.append(f"{crate} isn't both in the picture of {MAP} and at or below akl in crates.txt")
for crate in sorted(row_of):
    for other in sorted(all_below.get(crate, set()) & {*row_of}):
        if row_of[other] <= row_of[crate]:
            wrong.append(f"in the picture of {MAP} {crate} stands on {other}, which is in no row below it")

print("".join(f"{line}\n" for line in wrong), end="")
sys.exit(1 if wrong else 0)
