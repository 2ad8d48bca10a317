#!/usr/bin/env python3
"""Spells the repository's own definitions, lemmas and record fields in snake case, as today's Rattle spells words.

usage: snake_names.py [--check] [ROOT]      run once, right after the kit's port.py; --check writes nothing

A name is the repository's own if a line of an .antt file declares it: `NAME : TYPE`, a field of a record, a helper under `where`.
Types and modules keep their capitals, goals and steps that Rattle names keep their dashes, names from src/ keep their spelling.
Comments turn names in camel case and names between backticks; pages turn what stands between backticks. must-fail edits turn as code.
Names that would fall together are printed, and nothing is written: give them another name in OTHERWISE.
"""

import collections
import os
import re
import sys

NAME = r"[^\s(){}.;,@\"«»:|]+"
TOKEN = re.compile(NAME)
SIGNATURE = re.compile(rf"^(\s*)((?:abbrev |unfoldable |pub )*)((?:{NAME} )*{NAME}) : (.*)$")
HEAD = re.compile(rf"^\s*pub (?:record|data) ({NAME})")
ALIAS = re.compile(rf"({NAME}) as (?:\w+)·\1(?![\w'])")
DOTTED = re.compile(r"\b[A-Z]\w*·([a-z]\w*)")
PAGES = ("README.md", "docs", "demo/README.md", "harness/README.md")

# what would fall together with another name, or with a word of the language
LEMMAS = """cell-ok cells-ok confidence-most dropped-one due-track entry-ok is-weak left_out nearest-first none_of not-admissible numbers-ok
pair-cell paired-slot pairing-ok position-most quality-most scores-ok shown-at sizes-ok told-paired told-unpaired"""
OTHERWISE = {n: n.replace("-", "_") + "_lem" for n in LEMMAS.split()}
VARIABLES = "rangeSigma azimuthSigma trackPrices rangeSpeed azimuthSpeed"
OTHERWISE |= {"at-end": "is_at_end", "is-held": "held_mark", "scoreSum": "sum_of_scores"}


def snake(name):
    if name in OTHERWISE:
        return OTHERWISE[name]
    name = name.replace("-", "_")
    name = re.sub(r"(?<=[a-z0-9])([A-Z])", lambda m: "_" + m[1].lower(), name)
    return name[0].lower() + name[1:]


def files(root, endings):
    for folder, dirs, names in os.walk(os.path.join(root, "crates")):
        dirs[:] = sorted(d for d in dirs if d not in ("out", "target"))
        for n in sorted(names):
            if n.endswith(endings):
                yield os.path.join(folder, n)


def is_type(name, sort):
    return name[0].isupper() and ("Type 0" in sort or len(name) == 1)


def declared(path, text):
    """The names that a file declares, but for goals, whose names are Rattle's."""
    by_function = path.endswith(("/Proof.antt", "/Answers.antt", "/Invariants.antt"))
    for line in text.splitlines():
        m = SIGNATURE.match(line)
        if not m or line.lstrip().startswith(("--", "let ", "in ", "λ")):
            continue
        if by_function and re.match(r"(tie|goal)\.|\{M : Type 1\} → statement", m[4]):
            continue
        for name in m[3].split():
            if not is_type(name, m[4]) and name not in ("record", "module", "use"):
                yield name


class Behind(dict):
    """A table that also turns a name in camel case or with dashes, if the code has it in snake case."""

    def __init__(self, table, known):
        super().__init__(table)
        self.known = known

    def get(self, name, default):
        if name in self:
            return self[name]
        if re.search("[a-z0-9]-[a-z0-9]|[a-z0-9][A-Z]", name) and not name[0].isupper() and snake(name) in self.known:
            return snake(name)
        return default


def code(text, table):
    return TOKEN.sub(lambda m: table.get(m[0], m[0]), text)


def comment(text, table):
    text = re.sub(r"`[^`\n]*`", lambda m: code(m[0].replace("`", " ` "), table).replace(" ` ", "`"), text)
    return TOKEN.sub(lambda m: table.get(m[0], m[0]) if re.search("[a-z][A-Z]", m[0]) else m[0], text)


def source(text, table, mark):
    out = []
    for line in text.split("\n"):
        m = re.search(rf"(^|\s){mark}", line)
        at = m.start() if m else len(line)
        out.append(code(line[:at], table) + comment(line[at:], table))
    return "\n".join(out)


def page(text, table):
    return re.sub(r"`[^`\n]*`", lambda m: code(m[0].replace("`", " ` "), table).replace(" ` ", "`"), text)


def undotted(text):
    return DOTTED.sub(r"\1", ALIAS.sub(r"\1", text))


def main(argv):
    check = "--check" in argv
    root = ([a for a in argv if not a.startswith("--")] or ["."])[0]
    texts = {p: open(p, encoding="utf-8").read() for p in files(root, (".antt", ".rt", ".edit"))}
    own, foreign = set(), collections.defaultdict(set)
    for p, t in texts.items():
        if p.endswith(".antt"):
            own.update(declared(p, t))
        for m in re.finditer(r"use (\S+?)\.\{([^}]*)\}", t):
            if not re.match(r"Rattle\.(?!std\b)", m[1]):
                for n in re.split(r"[\s,]+", m[2]):
                    foreign[n].add(p)
    table = {n: snake(n) for n in sorted(own) + VARIABLES.split() if snake(n) != n}
    bad = 0
    for n in sorted(table):
        if n in foreign:
            print(f"also the library's: {n} in {sorted(foreign[n])[:3]}")
            bad += 1
    back = collections.defaultdict(set)
    for n in own:
        back[snake(n)].add(n)
    for new, olds in sorted(back.items()):
        if len(olds) > 1:
            print(f"fall together as {new}: {sorted(olds)}")
            bad += 1
    for p, t in texts.items():
        here = set(TOKEN.findall(re.sub(r"(?m)(^|\s)--.*$", "", t)))
        for n in sorted(here & table.keys()):
            if table[n] in here and p.endswith(".antt") and "/Proof.antt" not in p:
                print(f"look: {os.path.relpath(p, root)}: {n} and {table[n]}")
    if bad and not check:
        print(f"{bad} names fall together: nothing was written")
        return 1
    spoken = {n: new for n, new in table.items() if re.search("-|[a-z0-9][A-Z]|^[A-Z]", n)}
    # port.py turned some names in code alone: pages and edits still have them as they were
    known = own | set(table.values())
    behind = Behind({n: new for n, new in spoken.items()}, known)
    changed = 0
    for p, t in texts.items():
        new = source(undotted(t), table, "--") if p.endswith(".antt") else source(undotted(t), behind if p.endswith(".edit") else spoken, "//")
        if new != t:
            changed += 1
            if not check:
                open(p, "w", encoding="utf-8").write(new)
    for top in PAGES:
        top = os.path.join(root, top)
        for p in [os.path.join(top, f) for f in sorted(os.listdir(top))] if os.path.isdir(top) else [top]:
            t = open(p, encoding="utf-8").read()
            new = page(t, behind)
            if new != t:
                changed += 1
                if not check:
                    open(p, "w", encoding="utf-8").write(new)
    print(f"{len(table)} names, {changed} files")
    return 0


if __name__ == "__main__":
    raise SystemExit(main(sys.argv[1:]))
