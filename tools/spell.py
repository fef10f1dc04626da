#!/usr/bin/env python3
"""Brings this repository's own names in specs/, proofs/ and clauses to the library's spelling.

usage: python3 spell.py [TOP]      run once, after the kit's port.py, at the top of a checkout (or at TOP)

Definitions, lemmas, fields, constructors and bound names are in snake case, types and records in upper camel case.
Rust code, strings, comments, inputs and outputs stay as they are: of a .rt file only ghost items and clauses are turned.
Names of goals are left to the check, but where one equals a name of ours.
Where two of our names would become one, it prints them and writes nothing. Where a new name stands somewhere already, as
that of a function's folder or of a field may, it prints the name, to be looked at.
"""

import glob
import os
import re
import sys

TOP = sys.argv[1] if len(sys.argv) > 1 else "."
WORD = re.compile(r"[^\s(){}\[\];,.\"⌜⌝|]+")
QUIET = re.compile(r'"(?:\\[\s\S]|[^"\\])*"|(?<!\S)--[^\n]*|//[^\n]*')
GHOST = re.compile(r"^\s*(?:pub\s+)?(?:ghost|requires|ensures)\b")
DEFINED = re.compile(
    r"^\s*(?:(?:abbrev|unfoldable|pub|mutual)\s+)*(?:(?:record|data)\s+(?:pub\s+)?)?([^\s(){}\[\];,.:|=]+)\s*(?:\(|\{|:)(?!\s*goal\.)"
)
BOUND = re.compile(r"[({]\s*((?:[^\s(){}\[\];,.:]+\s+)*[^\s(){}\[\];,.:]+)\s+:\s")
LET = re.compile(r"\blet\s+([^\s(){}\[\];,.:]+)\s*[:=]")
# parts that the library spells otherwise today
PARTS = [("natAbs", "unsigned_abs"), ("getD", "slice_index"), ("sumN", "nat_sum"), ("sumZ", "int_sum")]
# names without a dash, a type that was spelled as a word, and a name that an import gives
OTHERS = {
    "sumN": "nat_sum",
    "sumZ": "int_sum",
    "eqZ": "int_eq",
    "yes?": "is_yes",
    "inside?": "is_inside",
    "list-sound": "ListSound",
    "at-prepared": "at_prepared",
}
OPERATOR = re.compile(r"^[-+*/^<≤=≡∷ᵢℤ]+$")


def sources(kind):
    for p in sorted(glob.glob(os.path.join(TOP, "crates", "**", "*." + kind), recursive=True)):
        if "/out/" not in p:
            yield p


def is_own(line):
    return not re.match(r"\s*(use|pub mod|mod|infix|unfolding)\b", line) and not line.lstrip().startswith("--")


def own_names():
    names = set()
    for p in sources("antt"):
        with open(p, encoding="utf-8") as f:
            for line in f:
                if not is_own(line):
                    continue
                m = DEFINED.match(line)
                found = [m.group(1)] if m and ": goal." not in line else []
                for g in BOUND.findall(line):
                    found += g.split()
                found += LET.findall(line)
                names.update(n for n in found if "-" in n.strip("-") and "◌" not in n and not n.startswith(("c.", "goal")))
    return names


def library_names():
    """Names that are imported from elsewhere, and so are not ours."""
    names = set()
    for p in sources("antt"):
        with open(p, encoding="utf-8") as f:
            for line in f:
                m = re.match(r"\s*use\s+(Rattle\.std|native|borrow|denote|mir|Prim|mathlib|lib|logic)\b.*\.\{(.*)\}", line)
                if m:
                    names.update(w.strip().split(" as ")[0] for w in m.group(2).split(","))
    return names


def spelled(name):
    new = name
    for old, now in PARTS:
        new = new.replace(old, now)
    parts = new.split("-")
    if OPERATOR.match(parts[-1] or "-"):
        return new
    if parts[0][:1].isupper():
        return "".join(w[:1].upper() + w[1:] for w in parts)
    return "_".join(parts)


def turned(text, names):
    """The text with each name turned, but for its strings and comments."""
    out, last = [], 0
    for m in QUIET.finditer(text):
        out += [WORD.sub(lambda w: names.get(w.group(0), w.group(0)), text[last : m.start()]), m.group(0)]
        last = m.end()
    return "".join(out + [WORD.sub(lambda w: names.get(w.group(0), w.group(0)), text[last:])])


def turned_code(text, names):
    """Rust source: the lines of ghost items and clauses alone."""
    return "".join(turned(line, names) if GHOST.match(line) else line for line in text.splitlines(keepends=True))


def main():
    names = {n: spelled(n) for n in own_names() - library_names()} | OTHERS
    names = {n: s for n, s in names.items() if n != s}
    words = set()
    for p in sources("antt"):
        with open(p, encoding="utf-8") as f:
            words.update(WORD.findall(f.read()))
    clash, seen = False, {}
    for old, new in sorted(names.items()):
        if new in words:
            print(f"look: {new} is there already, as {old} was")
        if new in seen:
            print(f"falls together: {old} and {seen[new]} as {new}")
            clash = True
        seen[new] = old
    if clash:
        raise SystemExit(1)
    for kind, turn in (("antt", turned), ("rt", turned_code)):
        for p in sources(kind):
            with open(p, encoding="utf-8") as f:
                text = f.read()
            new = turn(text, names)
            if new != text:
                with open(p, "w", encoding="utf-8") as f:
                    f.write(new)
    print(f"{len(names)} names")


if __name__ == "__main__":
    main()
