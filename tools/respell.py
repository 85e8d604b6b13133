#!/usr/bin/env python3
"""Brings the names of this repository's definitions and lemmas to Rattle's spelling, once, after port.py.

usage: python3 tools/respell.py            at the top of the repository
       python3 tools/respell.py --list     prints the old and the new name of each, and changes nothing

A function of specs/, a lemma, a field and a constructor are in snake case. A dash stays only between two names, as in
`length-take`. Types, modules and the names of src/ stay as they are. A name that comes from the kit is never changed.
"""

import os
import re
import sys

WORD = r"[A-Za-z_][A-Za-z0-9_'₀-₉-]*"
TOKEN = re.compile(WORD)
DECLARED = re.compile(
    r"\s*(?:(?:pub|abbrev|unfoldable) )*((?:(?:record|data) )?)(" + WORD + r")\s*(?:[({].*)?:(?!=)"
)
# A definition that gives a value, and is named as a type.
VALUES = {"Reference": "reference", "LocatedReference": "located_reference"}
# Files whose name Rattle now takes for its own.
FILES = {"lease": ("Contracts", "Promises"), "workout": ("Contracts", "Promises")}
# Words of the kit's lists and numbers that stand in the names of lemmas.
KIT = set(
    "length take drop append map get_or get_or_lem set replicate reverse zip concat flatten add sub mul div mod suc min max "
    "pow eqb leb ltb cond compare zero one sum not and or".split()
)


def files(kinds):
    for folder, dirs, names in os.walk("crates"):
        dirs[:] = sorted(d for d in dirs if d not in ("out", ".git"))
        for name in sorted(names):
            if name.endswith(kinds):
                yield os.path.join(folder, name)


def read(path):
    with open(path, encoding="utf-8") as f:
        return f.read()


def code_of(line):
    """The part of a line of antt before its comment."""
    return line.split("--", 1)[0] if line.lstrip().startswith("--") or " -- " in line else line


def declared():
    """The names that the repository's antt files declare: functions that give values, and all of them."""
    functions, every, specs = set(), set(), set()
    for path in files((".antt",)):
        if path.count("/") > 3:
            continue
        text = read(path)
        lemma = "/proofs/" in path
        for m in DECLARED.finditer("\n".join(code_of(l) for l in text.split("\n"))):
            every.add(m.group(2))
            if not lemma:
                specs.add(m.group(2))
        for line in text.split("\n"):
            m = re.match(r"\s*(?:abbrev|unfoldable) (?:pub )?(" + WORD + ")", code_of(line))
            if m and not lemma:
                functions.add(m.group(1))
        for m in re.finditer(r"(?m)^\s*(?:pub )?data [^\n]* where\n((?:\s+[^\n]*\n)+)", text):
            for line in m.group(1).split("\n"):
                c = re.match(r"\s+(" + WORD + r")\s*:", line)
                if c:
                    every.add(c.group(1))
                    if not lemma:
                        specs.add(c.group(1))
    return functions, every, specs


def snake(name):
    """In snake case, with its dashes."""
    name = re.sub(r"(?<=[a-z0-9])([A-Z])(?=[a-z0-9])", lambda m: "_" + m.group(1).lower(), name)
    return name


def spelled(name, joined):
    if name in VALUES:
        return VALUES[name]
    if name[0].isupper() and "-" not in name:
        return name
    parts = [p if p[:1].isupper() else snake(p) for p in name.split("-")]
    out = parts[0]
    for left, right in zip(parts, parts[1:]):
        dash = left in joined and right in joined
        out += ("-" if dash else "_") + right
    return out


def renamed():
    """The new name of each declared name that changes."""
    functions, every, specs = declared()
    joined = KIT | {snake(f) for f in functions if f[0].islower() and "-" not in f}
    names = {n: spelled(n, joined) for n in every}
    taken = {}
    for old, new in sorted(names.items(), key=lambda p: (p[0] not in specs, p[0])):
        if taken.setdefault(new, old) != old:
            names[old] = new + "_lem"
    return {a: b for a, b in names.items() if a != b}


def turned(path, text, names):
    """The text with the new names; in Rattle source only where a dash or a capital can't be Rust's."""
    kept = set()
    if path.endswith(".antt"):
        for m in re.finditer(r"(?m)^use ([^\n{]*)\.\{([^}]*)\}", text):
            if not m.group(1).startswith("Rattle.") or m.group(1).startswith("Rattle.std."):
                kept |= set(re.split(r"[,\s]+", m.group(2)))
    seen = set(TOKEN.findall(text))
    for old in sorted(seen & set(names)):
        if names[old] in seen and names[old] not in names and old not in kept:
            print(f"look: {path}: {old} and {names[old]} fall together", file=sys.stderr)

    def new(m):
        old = m.group(0)
        start, end = m.start(), m.end()
        if old not in names or old in kept:
            return old
        if old in VALUES and (text[max(0, start - 1) : start] == "." or text[end : end + 1] == "." or text[max(0, start - 4) : start] == "mod "):
            return old
        if path.endswith(".rt") and re.fullmatch(r"[a-z0-9_]+(-[a-z0-9_]+)*", old):
            line = text[text.rfind("\n", 0, start) + 1 : text.find("\n", start)]
            if "//" in line or '"' in line or "-" not in old:
                return old
        return names[old]

    text = TOKEN.sub(new, text)
    for crate, (before, after) in FILES.items():
        text = text.replace(f"Rattle.{crate}.specs.{before}.", f"Rattle.{crate}.specs.{after}.")
        if path == f"crates/{crate}/specs/Lib.antt":
            text = text.replace(f"pub mod {before}\n", f"pub mod {after}\n")
    return text


def main():
    names = renamed()
    if "--list" in sys.argv:
        for a, b in sorted(names.items()):
            print(a, b)
        return
    for crate, (before, after) in FILES.items():
        os.rename(f"crates/{crate}/specs/{before}.antt", f"crates/{crate}/specs/{after}.antt")
    for path in files((".antt", ".rt", ".edit")):
        old = read(path)
        text = turned(path, old, names)
        if text != old:
            with open(path, "w", encoding="utf-8") as f:
                f.write(text)


if __name__ == "__main__":
    main()
