#!/usr/bin/env python3
"""Prints the figures of docs/CHANGES.md as a table, a row a crate: lines of code (src), definitions (other specs),
promises (the Promises files of specs), laws (the other proofs) and proofs of functions (Invariants and Answers);
characters of the longest line that a `requires` or `ensures` stands on, and of the longest such clause with its white
space folded; functions, and how many take seven parameters or more. The last row adds up, or takes the longest.

usage: tests/figures.py, at the repository's root.
"""
import pathlib
import re

MANY = 7
LINE, CONTRACT = "contract line", "contract"
CLAUSE = re.compile(r"\b(?:requires|ensures)(?: \w+)?\s*\{")
FUNCTION = re.compile(r"(?m)^[ \t]*(?:pub\s+)?(?:extern\s+\"C\"\s+)?fn\s+\w+\s*(?:<[^>(]*>)?\(")
OPENING, CLOSING = "([{", ")]}"


def text_of(path):
    return path.read_text(encoding="utf-8")


def lines(paths):
    return sum(len(text_of(path).splitlines()) for path in paths)


def closed(text, opening):
    """The place just behind the bracket that closes the one at `opening`."""
    depth = 0
    for at in range(opening, len(text)):
        depth += (text[at] in OPENING) - (text[at] in CLOSING)
        if depth == 0:
            return at + 1
    return len(text)


def clauses(code):
    """Each `requires` and `ensures` with its braces."""
    for match in CLAUSE.finditer(code):
        yield match.start(), closed(code, match.end() - 1)


def widest(code, start, end):
    """The longest whole line of those that a clause stands on."""
    start, end = code.rfind("\n", 0, start) + 1, code.find("\n", end)
    return max(len(line) for line in code[start:end].split("\n"))


def parameters(code):
    """The number of parameters of each function."""
    for match in FUNCTION.finditer(code):
        inner, count, depth = code[match.end():closed(code, match.end() - 1) - 1], 0, 0
        for part in re.split(r"([,(\[{)\]}])", inner):
            depth += (part in tuple(OPENING)) - (part in tuple(CLOSING))
            count += part == "," and depth == 0
        yield count + bool(inner.strip()) - inner.rstrip().endswith(",")


def row(crate):
    code = [re.sub(r"//[^\n]*", "", text_of(path)) for path in sorted(crate.glob("src/**/*.rt"))]
    found = [(text, *clause) for text in code for clause in clauses(text)]
    counts = [count for text in code for count in parameters(text)]
    promises = list(crate.glob("specs/**/*Promises.antt"))
    proofs = [path for name in ("Invariants", "Answers") for path in crate.glob(f"proofs/**/*/{name}.antt")]
    return [
        lines(crate.glob("src/**/*.rt")),
        lines(path for path in crate.glob("specs/**/*.antt") if path not in promises),
        lines(promises),
        lines(path for path in crate.glob("proofs/**/*.antt") if path not in proofs),
        lines(proofs),
        max((widest(*clause) for clause in found), default=0),
        max((len(" ".join(text[start:end].split())) for text, start, end in found), default=0),
        len(counts),
        sum(count >= MANY for count in counts),
    ]


def main():
    names = [line.split(":")[0].split()[0] for line in text_of(pathlib.Path("crates.txt")).splitlines() if ":" in line]
    columns = ["src", "definitions", "promises", "laws", "proofs", LINE, CONTRACT, "functions", f"of {MANY} or more"]
    rows = {name: row(pathlib.Path("crates") / name) for name in names}
    longest = {columns.index(LINE), columns.index(CONTRACT)}
    rows["all"] = [(max if at in longest else sum)(column) for at, column in enumerate(zip(*rows.values()))]
    print("| crate | " + " | ".join(columns) + " |")
    print("|---" * (len(columns) + 1) + "|")
    for name, numbers in rows.items():
        print(f"| {name} | " + " | ".join(map(str, numbers)) + " |")


if __name__ == "__main__":
    main()
