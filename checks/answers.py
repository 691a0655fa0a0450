#!/usr/bin/env python3
"""answers.py PROGRAM [--stack KIB]: runs the built program on the known answers of answers.txt and on the runs that the documents show.

Each answer is a name, the words after `sigma` as a shell reads them, the lines of standard output, and the exit status;
{text*n} stands for n times the text. A line `$ printf TEXT | sigma ..` gives the program TEXT to read, and so do lines `< ..`
above what each is answered; else there is nothing to read. Nothing may go to standard error. A run that README.md or a document shows is such a line and the
lines below it. With --stack the program has that much stack. Prints what differs and the
counts; ends with 1 where something differs.
"""
import argparse
import re
import resource
import shlex
import subprocess
import sys
from itertools import zip_longest
from pathlib import Path

HERE = Path(__file__).resolve().parent
ROOT = HERE.parent


def written_out(line):
    return re.sub(r"\{(.*?)\*(\d+)\}", lambda m: m[1] * int(m[2]), line)


def words_of(line):
    """The words after `sigma`, and the bytes to be read."""
    words, given = shlex.split(written_out(line)), b""
    if words[0] == "printf":
        assert words[2:4] == ["|", "sigma"], line
        given, words = words[1].replace("\\n", "\n").encode(), words[3:]
    assert words[0] == "sigma", line
    return words[1:], given


def known(path):
    """(name, words, lines, status) of each answer of the file."""
    text = "\n".join(line for line in path.read_text().splitlines() if not line.startswith("#"))
    for block in re.split(r"\n\s*\n", text.strip()):
        name, *rows = block.splitlines()
        rows = [row.removeprefix("    ") for row in rows]
        assert rows[0].startswith("$ ") and rows[-1].startswith("status "), name
        words, given = words_of(rows[0].removeprefix("$ "))
        given += b"".join(written_out(row[2:]).encode() + b"\n" for row in rows[1:-1] if row.startswith("< "))
        told = [row for row in rows[1:-1] if not row.startswith("< ")]
        yield name, (words, given), told, int(rows[-1].split()[1])


def shown(path):
    """(place, words, lines, None) of each run that a document shows."""
    lines = path.read_text().splitlines()
    for at, line in enumerate(lines):
        if not re.match(r"    \$ (sigma|printf .* \| sigma) ", line):
            continue
        below = []
        for after in lines[at + 1:]:
            if not after.startswith("    ") or after.startswith("    $ "):
                break
            below.append(after.removeprefix("    "))
        yield f"{path.relative_to(ROOT)}:{at + 1}", words_of(line.removeprefix("    $ ")), below, None


def differs(program, words, given, lines, status, stack):
    def limit():
        if stack:
            resource.setrlimit(resource.RLIMIT_STACK, (stack << 10, stack << 10))

    run = subprocess.run(
        [program] + words, input=given, capture_output=True, timeout=120, preexec_fn=limit
    )
    written, told = run.stdout.decode(errors="replace"), run.stderr.decode(errors="replace")
    wanted = "".join(line + "\n" for line in lines)
    if written != wanted:
        pairs = enumerate(zip_longest(written.split("\n"), wanted.split("\n")), 1)
        at, (ours, theirs) = next((at, pair) for at, pair in pairs if pair[0] != pair[1])
        return f"line {at}: wrote {(ours or '')[:200]!r}, wanted {(theirs or '')[:200]!r}"
    if status is not None and run.returncode != status:
        return f"ended with {run.returncode}, wanted {status}"
    if told:
        return f"wrote to standard error: {told[:200]!r}"
    return None


def main():
    wants = argparse.ArgumentParser()
    wants.add_argument("program", type=Path)
    wants.add_argument("--stack", type=int)
    given = wants.parse_args()
    answers = list(known(HERE / "answers.txt"))
    for path in [ROOT / "README.md", *sorted(ROOT.glob("docs/**/*.md"))]:
        answers += shown(path)
    failed = 0
    for name, (words, read), lines, status in answers:
        fault = differs(str(given.program.resolve()), words, read, lines, status, given.stack)
        if fault:
            failed += 1
            print(f"{name}: {fault}")
    print(f"known answers: {len(answers) - failed} passed, {failed} failed")
    return 1 if failed else 0


if __name__ == "__main__":
    sys.exit(main())
