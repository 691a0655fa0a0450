#!/usr/bin/env python3
"""layers.py [--write]: the picture of the layers and the table of crates in docs/MAINTAINING.md are those of crates.txt.

crates.txt names the crates in groups, each below a comment, and what each stands on. The picture has a box a group. Within a
group an arrow goes from a crate to one that stands on it, and between groups from a group to one that has a crate that stands on one
of it; arrows that others imply are left out. The table has a row for each crate, in the same order: its group, its name, what it is
in one line, and whether it is in the program. That line is written by hand; a new row begins with the first sentence of the crate's
`//!`. Prints what differs; with --write it puts the right picture and rows in. documents.py runs this.
"""
import re
import sys
from pathlib import Path

ROOT = Path(__file__).resolve().parent.parent
CRATES = ROOT / "crates.txt"
PAGE = ROOT / "docs/MAINTAINING.md"
PROGRAM = "sigma"
FENCE = "```mermaid"
HEAD = ["| | crate | in one line | in the program |", "|---|---|---|---|"]


def groups():
    """(title, {crate: those of the file that it stands on}) of each comment of crates.txt with crates below it, in order."""
    found, known = [], set()
    for line in CRATES.read_text().splitlines():
        if line.startswith("#"):
            found.append((line.removeprefix("#").strip().replace(";", ","), {}))
        elif ":" in line:
            name, below = line.split(":")
            found[-1][1][name.split()[0]] = set(below.split()) & known
            known.add(name.split()[0])
    return [(title, crates) for title, crates in found if crates]


def closed(below):
    """All that each key stands on, directly or not: each stands on keys before it alone."""
    over = {}
    for name, direct in below.items():
        over[name] = set().union(direct, *(over[other] for other in direct))
    return over


def without_implied(below):
    over = closed(below)
    return {name: {x for x in direct if not any(x in over[y] for y in direct)} for name, direct in below.items()}


def within(crates):
    return without_implied({name: below & set(crates) for name, below in crates.items()})


def between(found):
    """The same of groups, by their places."""
    place = {name: at for at, (_, crates) in enumerate(found) for name in crates}
    return without_implied(
        {at: {place[x] for below in crates.values() for x in below} - {at} for at, (_, crates) in enumerate(found)}
    )


def picture():
    found = groups()
    lines = [FENCE, "flowchart BT"]
    for at, (title, crates) in enumerate(found):
        lines.append(f'    subgraph g{at}["{title}"]')
        lines += [f"        {name}" for name in crates]
        lines += [f"        {x} --> {name}" for name, below in within(crates).items() for x in sorted(below)]
        lines.append("    end")
    lines += [f"    g{x} ==> g{at}" for at, below in between(found).items() for x in sorted(below)]
    return lines + ["```"]


# ---- The table


def sources(name):
    return sorted((ROOT / "crates" / name / "src").glob("**/*.rt"))


def first_sentence(name):
    head = "\n".join(line for path in sources(name) for line in path.read_text().splitlines() if line.startswith("//!"))
    text = " ".join(line.removeprefix("//!").strip() for line in head.splitlines())
    return re.split(r"\.(?: |$)", text)[0] or "main"


def part(name, program):
    """What the crate is in the program: code, proofs alone, or nothing yet."""
    if name.endswith("_tests"):
        return "no"
    has_code = any(re.search(r"^\s*(pub(\(crate\))? )?fn ", path.read_text(), re.M) for path in sources(name))
    return ("yes" if has_code else "proofs") if name in program else ("not yet" if has_code else "proofs, not yet")


def rows(told):
    """The rows of the table, where told has the lines that are written by hand."""
    found = groups()
    below = closed({name: direct for _, crates in found for name, direct in crates.items()})
    program = below[PROGRAM] | {PROGRAM}
    out = []
    for title, crates in found:
        for at, name in enumerate(crates):
            line = told.get(name) or first_sentence(name)
            out.append(f"| {'' if at else title + ' '}| {name} | {line} | {part(name, program)} |".replace("|  |", "| |"))
    return out


# ---- The page


def pieces(lines):
    """The places of the picture and of the table, and the lines of the table that are written by hand."""
    start = lines.index(FENCE)
    end = lines.index("```", start + 1) + 1
    first = next(at for at in range(end, len(lines)) if lines[at:at + 2] == HEAD) + 2
    last = next(at for at in range(first, len(lines) + 1) if at == len(lines) or not lines[at].startswith("|"))
    cells = [[cell.strip() for cell in line.split("|")] for line in lines[first:last]]
    return start, end, first, last, {row[2]: row[3] for row in cells}


def faults():
    lines = PAGE.read_text().splitlines()
    start, end, first, last, told = pieces(lines)
    wanted, mend = rows(told), "python3 checks/layers.py --write"
    out = [f"docs/MAINTAINING.md: the table of crates has or lacks {row}" for row in sorted(set(wanted) ^ set(lines[first:last]))]
    if not out and wanted != lines[first:last]:
        out.append(f"docs/MAINTAINING.md: the table of crates isn't in the order of crates.txt ({mend})")
    if lines[start:end] != picture():
        out.append(f"docs/MAINTAINING.md: the picture isn't what crates.txt says ({mend})")
    return out


def write():
    lines = PAGE.read_text().splitlines()
    start, end, first, last, told = pieces(lines)
    PAGE.write_text("\n".join(lines[:start] + picture() + lines[end:first] + rows(told) + lines[last:]) + "\n")


if __name__ == "__main__":
    if "--write" in sys.argv:
        write()
    for fault in faults():
        print(fault)
    sys.exit(1 if faults() else 0)
