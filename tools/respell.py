#!/usr/bin/env python3
"""Brings the repository's own definitions, lemmas and record fields to snake case, after the kit's port/port.py.

usage: python3 tools/respell.py [--list]     at the top of the repository, once

Names are those that crates/*/specs and crates/*/proofs/*.antt declare: words joined by dashes or by capitals become words joined by
underscores. Types and modules keep their capitals, and names that a library has stay. A lemma that would have the name of a definition
gets `_lem`. --list only prints what would be renamed, and which names fall together.
"""
import glob
import os
import re
import sys

WORD = re.compile(r"[^\s(){}\[\].;,@\"«»`:⌜⌝λ]+")
DECLARED = re.compile(r"^\s*(?:abbrev |unfoldable |unfolding |pub |ruleset |infix[lr]? \d+ )*([^\s(){}.;,@\"«»:]+)(?: \{.*\})? : ")
RULESET = re.compile(r"^\s*pub ruleset ([^\s]+) =")


# Lemmas and fields whose name a definition of theirs takes, by crate.
LEMMAS = {
    "answer_lines": ["is_digit"],
    "element_lines": ["is_digit", "all_digits"],
    "moment": ["same_bool"],
    "tle": ["is_digit", "digit_at", "two_digits"],
}


def lemma_files():
    return sorted(glob.glob("crates/*/specs/**/*.antt", recursive=True) + glob.glob("crates/*/proofs/*.antt"))


def all_files():
    kinds = ("crates/*/src/**/*.rt", "crates/*/specs/**/*.antt", "crates/*/proofs/**/*.antt", "crates/*/must-fail/*.edit")
    return sorted(p for k in kinds for p in glob.glob(k, recursive=True) if "/out/" not in p)


def read(path):
    with open(path, encoding="utf-8") as f:
        return f.read()


def snake(name):
    if "◌" in name or "_then_" in name or name[0] == "_":
        return name
    if name[0].isupper() and "-" not in name:
        return name
    words = re.sub(r"([a-z0-9])([A-Z])", lambda m: m.group(1) + "_" + m.group(2).lower(), name)
    return words.replace("-", "_")


def from_elsewhere():
    """Names that some file takes from a library of the kit."""
    names = set()
    for path in all_files():
        for m in re.finditer(r"(?:ghost )?use (\S+)\.\{([^}]*)\}", read(path)):
            own = m.group(1).startswith("Rattle.") and os.path.isdir("crates/" + m.group(1).split(".")[1])
            if not own:
                names |= {n.split(" as ")[0].strip() for n in m.group(2).split(",")}
    return names


def renames():
    library, table = from_elsewhere(), {}
    for path in lemma_files():
        for line in read(path).split("\n"):
            m = RULESET.match(line) or DECLARED.match(line)
            if m and snake(m.group(1)) != m.group(1) and m.group(1) not in library:
                table[m.group(1)] = snake(m.group(1))
    taken = {new for old, new in table.items() if "-" not in old} | library
    return {old: new + "_lem" if "-" in old and new in taken else new for old, new in table.items()}


def main():
    table = renames()
    if "--list" in sys.argv:
        files = {p: set(WORD.findall(read(p))) for p in all_files()}
        for old, new in sorted(table.items()):
            both = [p for p, words in files.items() if old in words and new in words]
            print(old, new, *both)
        return
    changed = 0
    for path in all_files():
        text = read(path)
        here = dict(table)
        if path.endswith(".antt"):
            here.update((n, n + "_lem") for n in LEMMAS.get(path.split("/")[1], []))
        new = WORD.sub(lambda m: here.get(m.group(0), m.group(0)), text)
        if new != text:
            changed += 1
            with open(path, "w", encoding="utf-8") as f:
                f.write(new)
    print(f"{len(table)} names, {changed} files")


main()
