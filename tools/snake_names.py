#!/usr/bin/env python3
"""Brings the repository's own definitions, lemmas and fields to snake case: legFits and leg-fits become leg_fits.

usage: python3 tools/snake_names.py [--list]      at the top of the repository

Names that the source gives (functions, fields, variants), names that the check makes (goals and steps) and
names of the library stay. --list writes what would change, and which names would fall together.
"""

import collections
import os
import re
import sys

IDENT = r"[^\W\d][\w'≢≡]*(?:-[\w'≢≡]+)*"
TOKEN = re.compile(r"(?<![\w'≢≡-])" + IDENT)
MADE = {"Answers.antt", "Invariants.antt", "Choices.antt", "Proof.antt"}
KIT = "/opt/rattle"
# where two names of one scope would fall together, or one with a word of the library
BY_HAND = {
    "cap-fits": "cap_is_fit",
    "level-sum": "level_sums",
    "price-by": "price_is_by",
    "price-of": "price_is",
    "shown-items": "items_are_shown",
    "sizes-fit": "sizes_do_fit",
}
# a lemma of one file, whose name is a definition's now
IN_FILE = {
    "crates/share/specs/Prorating.antt": {"one_more": "one_more_is"},
}


def snake(name):
    if name in BY_HAND:
        return BY_HAND[name]
    name = name.replace("-", "_")
    if name[0].isupper():
        return name
    return re.sub(r"(?<=[a-z0-9])([A-Z])", lambda m: "_" + m.group(1).lower(), name)


def files(*ends):
    for folder, dirs, names in os.walk("crates"):
        dirs[:] = sorted(d for d in dirs if d != "out")
        for name in sorted(names):
            if name.endswith(ends):
                yield os.path.join(folder, name)


def read(path):
    with open(path, encoding="utf-8") as f:
        return f.read()


def is_made(path):
    """A file of answers, whose names the check makes."""
    return os.path.basename(path) in MADE and "/proofs/" in path


def defined():
    """Own names: where each is defined, and those that are fields."""
    where, fields = collections.defaultdict(set), set()
    for path in files(".antt"):
        text = read(path)
        record = None
        for line in text.split("\n"):
            if re.match(r"\s*--", line):
                continue
            head = re.match(r"(\s*)(?:pub )?(record|data)\s+(" + IDENT + r").*\bwhere\b", line)
            if head:
                record = (len(head.group(1)), head.group(2))
                continue
            indent = len(line) - len(line.lstrip())
            if line.strip() and record and indent <= record[0]:
                record = None
            m = re.match(r"(\s*)((?:pub |abbrev |unfoldable |opaque |private )*)(" + IDENT + r")\s*:(?![:=])", line)
            if not m:
                continue
            name = m.group(3)
            if is_made(path) and re.search(r":\s*(goal|given)\.", line):
                continue
            where[name].add(path)
            if record and record[1] == "record":
                fields.add(name)
    for path in files(".rt"):
        for m in re.finditer(r"\bghost (" + IDENT + r")\s*(?::|\(|\{)", read(path)):
            if m.group(1) not in ("use", "let"):
                where[m.group(1)].add(path)
                fields.add(m.group(1))
    return where, fields


def turn(path, names, fields):
    text = read(path)
    before_turn = text
    for old, new in IN_FILE.get(path, {}).items():
        text = re.sub(r"(?<![\w'-])" + old + r"(?![\w'-])", new, text)
    aliases = set(re.findall(r"^\s*use .*? as (\w+)", text, re.M))
    rust = path.endswith(".rt")
    out = []
    for line in text.split("\n"):
        comment = line.find("//") if rust else line.find("--")
        done, at = [], 0
        strings = [m.span() for m in re.finditer(r'b?"(?:[^"\\]|\\.)*"', line)] if rust else []
        for m in TOKEN.finditer(line):
            name = m.group(0)
            if name not in names or any(a <= m.start() < b for a, b in strings):
                continue
            said = 0 <= comment < m.start()
            if said and "-" in name:
                continue
            before = line[: m.start()]
            if before.endswith(".") and not said:
                owner = re.search(r"([\w'-]+)\.$", before)
                is_path = owner and (owner.group(1) in aliases or (owner.group(1)[0].isupper() and "Rattle." in before))
                if not is_path and name not in fields:
                    continue
            done.append(line[at : m.start()] + snake(name))
            at = m.end()
        out.append("".join(done) + line[at:])
    turned = "\n".join(out)
    if turned != before_turn:
        with open(path, "w", encoding="utf-8") as f:
            f.write(turned)
        return 1
    return 0


def main():
    where, fields = defined()
    names = {n for n in where if snake(n) != n}
    if "--list" in sys.argv:
        tokens = collections.defaultdict(set)
        for path in files(".antt", ".rt"):
            for t in TOKEN.findall(read(path)):
                tokens[t].add(path)
        to = collections.defaultdict(set)
        for n in names:
            to[snake(n)].add(n)
        for new, olds in sorted(to.items()):
            clash = (len(olds) > 1) or new in where
            used = tokens.get(new, set()) - (where.get(new) or set())
            if clash or used:
                print(("CLASH " if clash else "used  ") + new, sorted(olds), [sorted(where[o])[:2] for o in sorted(olds)], "defined:", sorted(where.get(new, []))[:3], "used:", sorted(used)[:4])
        print(len(names), "names")
        return
    n = sum(turn(path, names, fields) for path in files(".antt", ".rt"))
    print(f"{len(names)} names in {n} files")


if __name__ == "__main__":
    main()
