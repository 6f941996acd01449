#!/usr/bin/env python3
"""Turns the proofs of functions that walk the code by hand, proofs/F/Proof.antt, into Invariants.antt and Answers.antt.

usage: tools/answers.py CRATE_FOLDER NAMES.json [FUNCTION..]

NAMES.json is what `rt check --generated DIR --old-names` writes in the crate's folder. Each answer that has a name is kept under the goal's new name,
with the paths into `c` as they are now; answers that only say `search rules` or `omega arith` go. What it cannot turn it says, behind `left:`.
"""
import glob
import json
import os
import re
import sys

TOKEN = r'[^\s(){}.;,@"«»`]+'
SEEN = ("wire", "store", "compare", "commands", "feeder")
START = ("args", "requires", "ranges", "well_formed", "lifetimes", "type_inv")
TRIVIAL = re.compile(r"λ c( κs)?\. (search rules|omega arith|tt|search \(rules\)|omega \(arith\))$")


def norm(name):
    return name.replace("-", "_")


def read(path):
    with open(path, encoding="utf-8") as f:
        return f.read()


def clauses_of(root):
    """For each function of src/, by its path, the labels of its requires and of its ensures."""
    found = {}
    for path in glob.glob(os.path.join(root, "crates/*/src/**/*.rt"), recursive=True):
        crate = os.path.relpath(path, os.path.join(root, "crates")).split("/")[0]
        rel = os.path.relpath(path, os.path.join(root, "crates", crate, "src"))[:-3]
        module = [] if rel in ("lib", "main") else rel.split("/")
        name, kinds = None, None
        for line in read(path).splitlines():
            m = re.match(r"\s*(?:pub(?:\([^)]*\))? )?(?:unsafe )?(?:extern \"C\" )?fn (\w+)", line)
            if m:
                name = "::".join([crate, *module, m[1]])
                kinds = found[name] = {"requires": [], "ensures": []}
            m = re.match(r"\s*(requires|ensures)\b ?(\w*) *\{", line)
            if m and kinds is not None:
                kinds[m[1]].append(m[2])
    return found


def labelled(kind, labels, rest):
    """The fields behind `.requires` or `.ensures` where there are several clauses, which the older form had as a product."""
    if len(labels) < 2:
        return [kind, *rest]
    at, rest = 0, list(rest)
    while rest and rest[0] in ("0", "1"):
        step = rest.pop(0)
        if step == "0":
            return [kind, labels[at], *rest]
        at += 1
        if at == len(labels) - 1:
            return [kind, labels[at], *rest]
    return [kind, *rest]


class Names:
    def __init__(self, one, clauses, function):
        self.clauses, self.function = clauses, function
        self.params = one["params"]
        parts = function.split("::")
        inside = [f for f in clauses if f.split("::")[0] == parts[0] and f.split("::")[-1] == parts[-1]]
        self.own = clauses.get(function) or (clauses[inside[0]] if inside else {})
        self.places = {}
        self.arms = {}
        self.typed = {}
        for i, (name, parent, step, callee, fields) in enumerate(one["places"]):
            self.places[name] = (parent, norm(step[0]), step[1], callee, dict(fields), i)
            arm = one["arms"][i] if i < len(one["arms"]) else None
            if arm:
                for field, old, path in arm[2]:
                    self.arms.setdefault(name, []).append((field, norm(old), tuple(path), arm[0]))
            for var, old in one["typed"][i] if i < len(one["typed"]) else []:
                self.typed[norm(old)] = var
        self.needs = {}
        self.order = []
        for (old, new), (place, _) in zip(one["needs"], one["asked_at"]):
            self.needs[norm(old)] = (new, place)
            self.order.append((new, place))
        self.loops = {}
        for (names, variables), changed in zip(one["loops"], one["changed"]):
            self.loops[norm(names[0])] = (names[1], variables, changed)

    def chain(self, place):
        while place is not None:
            yield place
            place = self.places[place][0]

    def resolve(self, place, steps, said):
        """A path from a place: ('place', p) or ('text', path). How many steps back a field stands is not asked: the chain has it once."""
        steps = [s for s in steps if s != "before"]
        if not steps:
            return "place", place
        first, rest = steps[0], steps[1:]
        key = norm(first)
        chain = list(self.chain(place))
        found = [p for p in chain[:-1] if self.places[p][1] == key]
        if not found and first in START:
            if first == "requires":
                rest = labelled("requires", self.own.get("requires", []), rest)[1:]
            return "text", ".".join(["c", first, *rest])
        in_arms = [(field, path, arm) for p in chain for (field, old, path, arm) in self.arms.get(p, []) if old == key]
        if not found and not in_arms:
            stem = key.rstrip("0123456789")
            near = [p for p in chain[:-1] if self.places[p][1].rstrip("0123456789") == stem]
            wanted = [p for p in near if int(self.places[p][1][len(stem) :] or 1) == int(key[len(stem) :] or 1) + 1]
            if key == "well_formed" or key.startswith("well_formed"):
                found = wanted
            elif len(near) == 1:
                found = near
            if found:
                key = self.places[found[0]][1]
            near_arms = [(field, path, arm, old) for p in chain for (field, old, path, arm) in self.arms.get(p, []) if old.rstrip("0123456789") == stem]
            if not found and len({it[3] for it in near_arms}) == 1:
                in_arms = [it[:3] for it in near_arms]
        best = None
        for field, path, arm in in_arms:
            if tuple(rest[: len(path)]) == path and (best is None or len(path) > len(best[1])):
                best = (field, path, arm)
        if best and not best[1] and rest:
            return "text", ".".join(["c", best[2], best[0], *rest])
        if best:
            tail = rest[len(best[1]) :]
            if best[0] == "ensures":
                tail = labelled("ensures", self.ensures_of(place), tail)[1:]
            return "text", ".".join(["c", best[2], best[0], *tail])
        if key in self.typed and rest[:1] == ["given"]:
            return "text", ".".join(["c", "type_inv", self.typed[key], *rest[1:]])
        if not found:
            said.append(f"{first} is not behind {place}")
            return "text", ".".join(["c", first, *rest])
        parent, old, new, callee, fields, _ = self.places[found[0]]
        if rest and rest[0] in fields:
            rest[0] = fields[rest[0]]
        if callee and len(rest) > 1 and rest[0] in ("new", "auto") and rest[1] in ("0", "1"):
            at, tail = 0, rest[1:]
            while tail and tail[0] == "1":
                at, tail = at + 1, tail[1:]
            params = self.params.get(callee, [])
            if tail[:1] == ["0"] and at < len(params):
                rest = [rest[0], params[at], *tail[1:]]
            else:
                said.append(f"{'.'.join(rest)} at {place}")
        if rest and rest[0] == "ensures" and callee:
            rest = labelled("ensures", self.clauses.get(callee, {}).get("ensures", []), rest[1:])
        return "text", ".".join(["c", new, *rest])

    def ensures_of(self, place):
        while place:
            parent, _, _, callee, _, _ = self.places[place]
            if callee:
                return self.clauses.get(callee, {}).get("ensures", [])
            place = parent
        return []


def opening(text):
    """Where the bracket opens that the text ends with."""
    depth = 0
    for i in range(len(text) - 1, -1, -1):
        if text[i] in ")}]":
            depth += 1
        elif text[i] in "({[":
            depth -= 1
            if depth == 0:
                return i
    return -1


def parts_of(text):
    """The parts of a tuple, or None."""
    text = text.strip()
    if not text.startswith("(") or opening(text) != 0 or not text.endswith(")"):
        return None
    out, depth, cur = [], 0, ""
    for ch in text[1:-1]:
        if ch in "({[":
            depth += 1
        if ch in ")}]":
            depth -= 1
        if ch == "," and depth == 0:
            out.append(cur.strip())
            cur = ""
        else:
            cur += ch
    if cur.strip():
        out.append(cur.strip())
    return out if len(out) > 1 else None


def as_record(text, labels):
    """An answer to several clauses, which the older form had as nested pairs."""
    text = text.rstrip()
    lets = re.match(r"(\s*(let .*? in\s+)*)", text, re.S)
    at = opening(text) if text.endswith(")") else -1
    if at >= 0 and re.search(r"(^|\bin)\s*$", text[:at]) and parts_of(text[at:]):
        parts = parts_of(text[at:])
        while len(parts) < len(labels):
            more = parts_of(parts[-1])
            if not more:
                break
            parts = parts[:-1] + more
        if len(parts) == len(labels):
            return text[:at] + "record { " + "; ".join(f"{l} = {p}" for l, p in zip(labels, parts)) + " }"
    head = text.rfind(" in ")
    head = head + 4 if re.match(r"\s*let ", text) and head >= 0 else 0
    paths = [".".join(["h"] + ["1"] * i + (["0"] if i < len(labels) - 1 else [])) for i in range(len(labels))]
    return text[:head] + " let h = " + text[head:].strip() + " in record { " + "; ".join(f"{l} = {p}" for l, p in zip(labels, paths)) + " }"


PATH = re.compile(rf"(?<![^\s(){{}},;@])([A-Za-z][^\s(){{}}.;,@\"«»`]*)((?:\.{TOKEN})*)")


def turn_body(body, names, place, said):
    """The text of an answer with its paths into `c` turned."""
    body = re.sub(r", c(\.before)*\.well_formed[.0-9]*(?=[,)])", "", body)
    env = {"c": ("place", place)}
    out, at = [], 0

    def turned(text):
        def one(m):
            head, tail = m[1], m[2]
            if head not in env:
                return m[0]
            kind, value = env[head]
            steps = [s for s in tail.split(".") if s]
            if kind == "place":
                k, v = names.resolve(value, steps, said)
                if k == "place":
                    said.append(f"{m[0]} is a place")
                return v
            k, v = names.resolve(value[0], [*value[1], *steps], said)
            return v

        return PATH.sub(one, text)

    for m in re.finditer(r"let (\S+) = (" + PATH.pattern + r")\s+in\s", body):
        if m.start() < at:
            continue
        name, head, tail = m[1], m[3], m[4]
        if head not in env:
            continue
        kind, value = env[head]
        base, steps = (value, []) if kind == "place" else (value[0], list(value[1]))
        steps += [s for s in tail.split(".") if s]
        k, v = names.resolve(base, steps, said)
        out.append(turned(body[at : m.start()]))
        if k == "place":
            env[name] = ("place", v)
        elif v.count(".") <= 1 or steps[-1:] == ["given"] or steps[-2:] == ["given", "0"]:
            env[name] = ("step", (base, steps))
        else:
            out.append(f"let {name} = {v} in ")
        at = m.end()
    out.append(turned(body[at:]))
    text = "".join(out)
    return re.sub(r"\n\s*\n", "\n", text)


def blocks_of(text):
    """The declarations of a file: comment, head line with its type, the lines below."""
    lines = text.splitlines()
    uses, blocks, comment, i = [], [], [], 0
    while i < len(lines):
        line = lines[i]
        if line.startswith("use "):
            uses.append(line)
        elif line.startswith("--"):
            comment.append(line)
        elif line.strip():
            block = [line]
            while i + 1 < len(lines) and (lines[i + 1].strip() and not re.match(r"(--|use )", lines[i + 1]) or (not lines[i + 1].strip() and i + 2 < len(lines) and lines[i + 2].startswith(" "))):
                i += 1
                block.append(lines[i])
            blocks.append((comment, block))
            comment = []
        i += 1
    if comment:
        blocks.append((comment, []))
    return uses, blocks


def split_args(text):
    """The arguments of an application, at depth 0."""
    out, depth, cur = [], 0, ""
    for ch in text:
        if ch in "({":
            depth += 1
        if ch in ")}":
            depth -= 1
        if ch.isspace() and depth == 0:
            if cur:
                out.append(cur)
            cur = ""
        else:
            cur += ch
    return out + ([cur] if cur else [])


def turn_file(folder, path, one, clauses, crate):
    rel = os.path.relpath(os.path.dirname(path), os.path.join(folder, "proofs"))
    function = "::".join([crate, *rel.split("/")])
    names = Names(one, clauses, function)
    said = []
    uses, blocks = blocks_of(read(path))
    uses = [u for u in uses if not re.search(r"\.(Statement\.\{statement\}|Tie as tie)$", u)]
    invariants, answers, helpers, positions = [], [], [], {}
    top = []
    for comment, block in blocks:
        if not block:
            top += comment
            continue
        head = block[0]
        m = re.match(r"(?:pub )?(?:abbrev )?(?:pub )?(\S+) : (.*)$", head)
        if not m:
            said.append(f"block {head[:60]}")
            continue
        name, kind = m[1], m[2]
        rest = block[1:]
        unfolding = [l for l in rest if l.startswith("unfolding ")]
        equation = [l for l in rest if not l.startswith("unfolding ")]
        body = "\n".join(equation)
        inv = re.match(r"tie\.(invariant|decreases)[-_](\S+)$", kind)
        need = re.match(r"tie\.Need-(\S+)", kind)
        if inv:
            loop = names.loops.get(norm(inv[2]))
            if not loop:
                said.append(f"loop {inv[2]}")
                continue
            new, variables, changed = loop
            m2 = re.match(re.escape(name) + r"((?: \S+)*?) =(\s)", body)
            params = m2[1].split()
            wanted = [(v, f"l.initial.{v}" if ch else f"l.{v}") for v, ch in zip(variables, changed)]
            wanted += [(v, f"l.{v}") for v, ch in zip(variables, changed) if ch]
            if len(params) != len(wanted):
                said.append(f"{name}: {len(params)} parameters, {len(wanted)} wanted: {variables} {changed}")
            by = {p: w[1] for p, w in zip(params, wanted)}
            text = body[m2.end() :]
            text = re.sub(rf"(?<![^\s(){{}},;@]){TOKEN}", lambda x: by.get(x[0], x[0]), text)
            invariants.append("\n".join([*comment, f"abbrev pub {inv[1]}-{new} : goal.{inv[1]}-{new}", *unfolding, f"{inv[1]}-{new} l ={m2[2]}{text}"]))
        elif need:
            key = norm(need[1])
            found = names.needs.get(key) or names.needs.get(re.sub(r"^(overflow|nonzero)_", "", key))
            positions[name] = (comment, unfolding, body, found)
        elif re.search(r"M : Type 1", kind) and ("tie.close" in body or "close" in body):
            args = split_args(re.sub(r"^\S+ =\s*", "", body))
            spec = args[1] if len(args) > 1 and args[0] == "tie.close" else ""
            inner = split_args(spec[1:-1]) if spec.startswith("(") else []
            inner = inner[1 + 2 * len(names.loops) :] if inner else []
            if not inner and names.order:
                said.append("no spec list")
            exact = len(inner) == len(names.order)
            if inner and not exact:
                said.append(f"{len(inner)} goals, {len(names.order)} now")
            for i, arg in enumerate(inner):
                bare = arg[1:-1] if arg.startswith("(") else arg
                if arg in positions:
                    comment2, unfolding2, body2, found = positions[arg]
                    if exact:
                        if found and found != names.order[i]:
                            said.append(f"{arg} is {found[0]} by name and {names.order[i][0]} by place")
                        found = found or names.order[i]
                    positions[arg] = (comment2, unfolding2, body2, found)
                elif not TRIVIAL.match(bare) and exact:
                    m3 = re.match(r"λ c(?: κs)?\. (.*)$", bare, re.S)
                    if m3:
                        positions[f"at {i}"] = ([], unfolding, f"it c = {m3[1]}", names.order[i])
                    else:
                        said.append(f"argument {bare[:50]}")
                elif not TRIVIAL.match(bare):
                    said.append(f"argument {bare[:80]}")
        else:
            helpers.append("\n".join([*comment, *block]))
    for name, (comment, unfolding, body, found) in positions.items():
        if not found:
            said.append(f"no goal for {name}")
            continue
        new, place = found
        m2 = re.match(r"\S+((?: \S+)*?) =(\s)", body)
        params = m2[1].split()
        if params and params[-1] == "κs":
            params.pop()
        if params != ["c"]:
            said.append(f"{name} takes {params}")
        text = turn_body(body[m2.end() :], names, place, said)
        labels = []
        if re.search(r"-requires(-|$)", new):
            callee = new.split("-")[0]
            near = [f for f in clauses if f.split("::")[-1] == callee]
            near = [f for f in near if f.split("::")[0] in SEEN]
            same = [f for f in near if f.rsplit("::", 1)[0] == function.rsplit("::", 1)[0]] or [f for f in near if f.startswith(crate + "::")] or near
            labels = clauses[same[0]]["requires"] if same else []
            if len(same) > 1 and len({tuple(clauses[f]["requires"]) for f in same}) > 1:
                said.append(f"{new}: which of {same}")
        elif re.match(r"returns(-|$)", new):
            labels = names.own.get("ensures", [])
        if len(labels) > 1:
            text = as_record(text, labels)
        answers.append((new, "\n".join([*comment, f"pub {new} : goal.{new}", *unfolding, f"{new} c ={m2[2]}{text}"])))
    base = f"Rattle.{crate}.proofs.{rel.replace('/', '.')}"
    where = os.path.dirname(path)
    if invariants:
        with open(os.path.join(where, "Invariants.antt"), "w", encoding="utf-8") as f:
            f.write("\n".join([*uses, f"use {base}.Given as goal"]) + "\n\n" + "\n\n".join(invariants) + "\n")
    if answers or helpers:
        with open(os.path.join(where, "Answers.antt"), "w", encoding="utf-8") as f:
            f.write("\n".join([*top, *uses, f"use {base}.Goals as goal"]) + "\n\n" + "\n\n".join([*helpers, *(a for _, a in answers)]) + "\n")
    os.remove(path)
    for it in said:
        print(f"left: {rel}: {it}")


def main(argv):
    folder, table, only = argv[0].rstrip("/"), json.load(open(argv[1])), argv[2:]
    crate = os.path.basename(os.path.abspath(folder))
    root = os.path.abspath(os.path.join(folder, "../.."))
    clauses = clauses_of(root)
    for path in sorted(glob.glob(os.path.join(folder, "proofs/**/Proof.antt"), recursive=True)):
        rel = os.path.relpath(os.path.dirname(path), os.path.join(folder, "proofs"))
        if only and rel not in only:
            continue
        key = f"Rattle-{crate}-proofs.{rel.replace('/', '.')}.Lts"
        if "+" in rel or key not in table:
            print(f"left: {rel}: not turned")
            continue
        turn_file(folder, path, table[key], clauses, crate)


if __name__ == "__main__":
    main(sys.argv[1:])
