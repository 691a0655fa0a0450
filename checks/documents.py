#!/usr/bin/env python3
"""documents.py [--table | --write]: what the documents quote and count is what stands in the files.

A quotation is an indented block below a line that ends with the name of a file and a colon, as "crates/x/specs/Y.antt:";
its lines stand in that file, one after the other, and a line ".." leaves some out. The table of docs/theorem.md has just the
files that hold the definitions which the clause of `sigma` comes down to: --table prints it. The picture of the layers and the table
of crates in docs/MAINTAINING.md are those of crates.txt (layers.py), and no file names a crate that isn't there. --write puts the
table of files and the picture in.
"""
import re
import sys
from pathlib import Path

import layers

ROOT = Path(__file__).resolve().parent.parent
HEADLINE = ROOT / "crates/sg_top/src/top.rt"
THEOREM = ROOT / "docs/theorem.md"
NAMING = ["crates.txt", "docs/**/*.md", "bench/*", "checks/*", "crates/*/src/**/*.rt", "crates/*/*/**/*.antt"]


def indent(line):
    return len(line) - len(line.lstrip(" "))


def quotations(path):
    """(line, file, lines) of each quotation of a document."""
    lines = path.read_text().splitlines()
    for at, line in enumerate(lines):
        named = re.search(r"`?(crates/[\w+./-]+\.(?:rt|antt))`?:$", line)
        if not named:
            continue
        start = at + 1
        while start < len(lines) and not lines[start].strip():
            start += 1
        end = start
        while end < len(lines) and (lines[end].startswith("    ") or not lines[end].strip()):
            end += 1
        block = lines[start:end]
        while block and not block[-1].strip():
            block.pop()
        yield at + 1, ROOT / named[1], [line[4:] for line in block]


def stands(part, lines, at):
    """Where the lines of the part end in the file, from the place on; None if they don't stand there."""
    for start in range(at, len(lines) - len(part) + 1):
        shift = indent(lines[start]) - indent(part[0])
        if shift >= 0 and all(
            theirs == (" " * shift + ours if ours else "") for ours, theirs in zip(part, lines[start:])
        ):
            return start + len(part)
    return None


def misquoted(file, block):
    """The first line of a part that the file doesn't have."""
    if not file.is_file():
        return "no such file"
    lines, at, part = file.read_text().splitlines(), 0, []
    for line in block + [".."]:
        if line.strip() != "..":
            part.append(line.rstrip())
        elif part:
            at = stands(part, lines, at)
            if at is None:
                return f"not there: {part[0]}"
            part = []
    return None


# ---- What the headline comes down to


def definitions(lines):
    """The lines of each definition by its name: signature, cases, fields, constructors. Those in a module with parameters count too."""
    found, name, inside = {}, None, False
    for line in lines:
        if re.match(r"module _ .* where$", line):
            inside, name = True, None
            continue
        if inside and line.strip():
            inside = line.startswith("  ")
            line = line.removeprefix("  ")
        head = re.match(r"(?:abbrev |unfoldable )*(?:pub )?(?:record |data )?([^\s:({]+)", line)
        if not line.strip() or line.startswith("--"):
            continue
        if not line.startswith(" ") and head and not line.startswith(("use ", "pub use ", "ghost use ")):
            name = head[1]
        if name and not line.startswith(("use ", "pub use ")):
            found.setdefault(name, []).append(line)
    return found


def imports(lines):
    """Where each imported name comes from: name -> (module, name there)."""
    found = {}
    for line in lines:
        use = re.match(r"\s*(?:ghost )?(?:pub )?use Rattle\.([\w.+]+?)\.\{(.*)\}", line)
        for item in use[2].split(",") if use else []:
            there, _, here = item.strip().partition(" as ")
            found[(here or there).strip()] = (use[1], there.strip())
    return found


def words(line):
    return set(re.split(r"[\s(){},;]+", re.sub(r"\.(?=\w)", " ", line)))


def owner(name, found):
    """The definition that a constructor or a name belongs to."""
    if name in found:
        return name
    for other, lines in found.items():
        if any(re.match(rf"  (?:pub )?{re.escape(name)} :", line) for line in lines):
            return other
    return None


def believed():
    """(file, lines of definitions) of every definition that the headline's clause comes down to."""
    head = HEADLINE.read_text().splitlines()
    clause = " ".join(line for line in head if line.strip().startswith("ensures"))
    wanted = [place for name, place in imports(head).items() if name.strip("◌") in words(clause)]
    seen, out = set(), {}
    while wanted:
        module, name = wanted.pop()
        if (module, name) in seen or module.startswith("std.") or ".declared." in module:
            continue
        seen.add((module, name))
        crate, *path = module.split(".")
        file = ROOT / "crates" / crate / ("/".join(path) + ".antt")
        lines = file.read_text().splitlines()
        found, brought = definitions(lines), imports(lines)
        mine = owner(name, found)
        if mine is None:
            if name in brought:
                wanted.append(brought[name])
            continue
        if mine in out.setdefault(file, {}):
            continue
        out[file][mine] = found[mine]
        used = set().union(*(words(line) for line in found[mine]))
        for other in used:
            if other in brought:
                wanted.append(brought[other])
            elif owner(other, found) not in (None, mine):
                wanted.append((module, other))
        for other, place in brought.items():
            if "◌" in other and other.replace("◌", " ").split()[0] in used:
                wanted.append(place)
    return out


def table():
    rows = sorted(
        (str(file.relative_to(ROOT / "crates")), len(file.read_text().splitlines()), sum(map(len, parts.values())))
        for file, parts in believed().items()
    )
    return [f"| {file} | {all_lines} | {used} |" for file, all_lines, used in rows] + [
        f"| all | {sum(r[1] for r in rows)} | {sum(r[2] for r in rows)} |"
    ]


def write():
    """Puts the table into the document, in place of the one there."""
    lines = THEOREM.read_text().splitlines()
    head = next(at for at, line in enumerate(lines) if line.startswith("| file | lines |")) + 2
    end = next(at for at, line in enumerate(lines) if at >= head and not line.startswith("|"))
    THEOREM.write_text("\n".join(lines[:head] + table() + lines[end:]) + "\n")


# ---- Names of crates


def strangers():
    """Each name of a crate, in documents, scripts, code and proofs, that crates.txt doesn't have."""
    there = {name for _, crates in layers.groups() for name in crates}
    for path in [ROOT / "README.md", *(path for end in NAMING for path in sorted(ROOT.glob(end)))]:
        if not path.is_file():
            continue
        for at, line in enumerate(path.read_text().splitlines()):
            for name in re.findall(r"\bsg_[a-z_]+", line):
                if name not in there:
                    yield f"{path.relative_to(ROOT)}:{at + 1}: there is no crate {name}"


def main():
    if "--table" in sys.argv:
        print("\n".join(table()))
        return 0
    if "--write" in sys.argv:
        write()
        layers.write()
        return 0
    faults, count = [], 0
    for path in [ROOT / "README.md", *sorted(ROOT.glob("docs/**/*.md"))]:
        for at, file, block in quotations(path):
            count += 1
            fault = misquoted(file, block)
            if fault:
                faults.append(f"{path.relative_to(ROOT)}:{at}: {file.relative_to(ROOT)}: {fault}")
    rows = [line for line in THEOREM.read_text().splitlines() if line.startswith(("| sg_", "| all |"))]
    faults += [f"docs/theorem.md: the table of files has or lacks {row}" for row in sorted(set(rows) ^ set(table()))]
    faults += [*layers.faults(), *strangers()]
    for fault in faults:
        print(fault)
    print(f"documents: {count} quotations, {len(faults)} faults")
    return 1 if faults else 0


if __name__ == "__main__":
    sys.exit(main())
