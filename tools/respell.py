#!/usr/bin/env python3
"""Spells the repository's own definitions, lemmas, fields and constructors in snake case, after port.py.

usage: tools/respell.py [--dry] [FOLDER]     FOLDER is the top of a checkout, `.` if not given

A name of specs/ or proofs/ that is declared there in camel case or with dashes is written with underscores in all crates: in .antt files, in the
clauses and `ghost use` lines of .rt files, and between backticks in comments. A lemma whose new name a definition has gets `_lem`. Types and modules
keep their capitals; functions of src/, strings, inputs and outputs are not touched. In a proofs/F/Proof.antt a name behind a dot, which is mostly one
that Rattle makes, only gets underscores. A name that a file takes from a library of the kit stays in that file.
"""
import collections
import glob
import os
import re
import sys

TOKEN = r'[^\s(){}.;,@"«»`]+'
DECLARED = re.compile(r"^(\s*)((?:pub |abbrev |unfoldable |ruleset )*)([^(){}.;,@\"«»:=λ|]+?)(?: *\{[^{}]*\})* :(?: |$)")
WORDS = {"in", "record", "data", "let", "pub", "abbrev", "unfoldable", "where", "use", "mod", "→"}
KIT = re.compile(r"(mathlib|lib|Prim|native|borrow|denote|seplogic|Rattle\.(std|core|io|libc|os)\b)")


def snake(name):
    name = re.sub(r"(?<=[a-z0-9])[A-Z]+", lambda m: "_" + m[0].lower(), name)
    return re.sub(r"(?<=[\w'])-(?=\w)", "_", name)


def read(path):
    with open(path, encoding="utf-8") as f:
        return f.read()


def is_proof(path):
    return os.path.basename(path) in ("Proof.antt", "Answers.antt", "Invariants.antt") and not path.endswith("/proofs/Answers.antt")


def declared(texts):
    """The names that specs/ and the files of laws declare, each with the kinds of its declarations: a function or a field."""
    kinds = collections.defaultdict(set)
    for path, text in texts.items():
        if is_proof(path):
            continue
        inside = None
        for line in text.splitlines():
            depth = len(line) - len(line.lstrip())
            if line.strip() and inside is not None and depth <= inside:
                inside = None
            if re.match(r"\s*(pub )?(record|data) .*", line):
                inside = depth
                continue
            m = DECLARED.match(line)
            if not m or line.lstrip().startswith(("--", "let ", "use ")):
                continue
            head = m[3].split()
            if set(head) & WORDS:
                continue
            kind = "field" if inside is not None else "definition" if "abbrev" in m[2] or "unfoldable" in m[2] else "lemma"
            for name in head:
                if not name[:1].isupper() and "◌" not in name and re.search(r"[A-Za-z]", name):
                    kinds[name].add(kind)
    return kinds


def mapping(kinds, rust):
    """Old names to new ones, where they differ."""
    wanted = collections.defaultdict(list)
    for name in kinds:
        wanted[snake(name)].append(name)
    new = {}
    for spelled, names in wanted.items():
        names.sort(key=lambda n: ("definition" not in kinds[n], "-" in n, n))
        for i, name in enumerate(names):
            if i and kinds[name] == {"lemma"} and "definition" in kinds[names[0]]:
                new[name] = spelled + "_lem"
            else:
                new[name] = spelled
    return {old: n for old, n in new.items() if old != n}


def from_kit(text):
    """The names that a file takes from the kit."""
    found = set()
    for path, names in re.findall(r"(?m)^\s*(?:pub |ghost |unfoldable )*use (\S+?)\.\{([^{}]*)\}", text):
        if KIT.match(path):
            for it in names.split(","):
                found.update(it.split())
    return found


def turn_code(code, new, stay, behind):
    def turned(m):
        dot, name = m[1], m[2]
        if dot and behind:
            return dot + snake(name) if not name[:1].isupper() and re.search(r"[a-z]", name) and "Need-" not in name else m[0]
        return dot + (name if name in stay else new.get(name, name))

    return re.sub(rf"(\.?)({TOKEN})", turned, code)


def turn_use(line, new, stay):
    """A `use` line: the names that it takes, and no module on the way."""
    m = re.match(r"([^{]*\.)?(\{.*\})?(.*)$", line)
    return (m[1] or "") + turn_code(m[2] or "", new, stay, False) + m[3]


def turn_comment(comment, new, stay):
    return re.sub(r"`[^`]*`", lambda m: turn_code(m[0], new, stay, False), comment)


def turn_antt(text, new, behind):
    stay = from_kit(text)
    out = []
    for line in text.splitlines(keepends=True):
        parts = re.split(r'("(?:[^"\\]|\\.)*"|--(?: .*|-*)$)', line.rstrip("\n"))
        done = []
        for part in parts:
            if part.startswith('"'):
                done.append(part)
            elif part.startswith("--"):
                done.append(turn_comment(part, new, stay))
            elif re.match(r"\s*(pub |unfoldable )*use ", part):
                done.append(turn_use(part, new, stay))
            else:
                done.append(turn_code(part, new, stay, behind))
        out.append("".join(done) + ("\n" if line.endswith("\n") else ""))
    return "".join(out)


def turn_rust(text, new):
    """Only clauses, ghost items and `ghost use` lines."""
    stay = from_kit(text)
    out, at = [], 0
    for m in re.finditer(r"(?m)^\s*(?:requires|ensures)\b[^{\n]*\{|^\s*ghost [^;{\n]*\{|^ *//.*$", text):
        if m.start() < at:
            continue
        out.append(text[at : m.start()])
        if m[0].lstrip().startswith("//"):
            out.append(turn_comment(m[0], new, stay))
            at = m.end()
            continue
        depth, end = 1, m.end()
        while depth:
            depth += {"{": 1, "}": -1}.get(text[end], 0)
            end += 1
        out.append(turn_code(text[m.start() : end], new, stay, False))
        at = end
    return "".join(out) + text[at:]


def main(argv):
    dry = "--dry" in argv
    top = next((a for a in argv if a != "--dry"), ".")
    antt = sorted(p for p in glob.glob(os.path.join(top, "crates/*/*/**/*.antt"), recursive=True) if "/out/" not in p)
    rust = sorted(glob.glob(os.path.join(top, "crates/*/src/**/*.rt"), recursive=True))
    texts = {p: read(p) for p in antt}
    kinds = declared(texts)
    new = mapping(kinds, rust)
    news = collections.defaultdict(list)
    for old, it in new.items():
        news[it].append(old)
    for it, olds in sorted(news.items()):
        if len(olds) > 1 or it in kinds:
            print(f"look: {it}: {', '.join(olds)}{' beside itself' if it in kinds else ''}")
    for p in antt + rust:
        text = texts.get(p) or read(p)
        to = turn_rust(text, new) if p.endswith(".rt") else turn_antt(text, new, is_proof(p))
        met = {it for it in re.findall(TOKEN, to)} & set(new.values())
        had = set(re.findall(TOKEN, text))
        fresh = sorted(it for it in met & had if any(o in had for o in news[it]))
        if fresh:
            print(f"look: {p}: {', '.join(fresh)}")
        if to != text and not dry:
            with open(p, "w", encoding="utf-8") as f:
                f.write(to)
    print(f"{len(new)} names respelled")


if __name__ == "__main__":
    main(sys.argv[1:])
