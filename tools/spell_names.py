#!/usr/bin/env python3
"""Brings the repository's own definitions and lemmas to today's spelling, once, after the library's names were turned.

Functions, lemmas and fields of specs/ and proofs/ are spelled in snake case, facts and records in camel case. A dash
stays where it joins the names of two definitions. Functions of src/, strings and comments keep their text. The script
stops where two names would fall together.

usage: tools/spell_names.py [--list]     at the top of the repository
"""
import glob
import re
import sys

# Lemmas that would take the name of the definition that they are about, and lemmas whose name joins two definitions.
OVERRIDES = {
    "kind-at": "kind_at_lem",
    "width-at": "width_at_lem",
    "kind-number": "kind_number_lem",
    "width-number": "width_number_lem",
    "length-storedIn": "length-stored_in",
    "getD-storedIn": "get_or-stored_in",
    "length-settled": "length-settled",
    "pageAt-settled": "page_at-settled",
}

DECLARED = re.compile(
    r"^\s*(?:(?:abbrev|unfoldable|pub|record|data|ruleset)\s+)*([^\s(){}:;=]+)\s+"
    r"(?:\([^()]*(?:\([^()]*\)[^()]*)*\)\s*|\{[^{}]*\}\s*)*:(?:\s|$)(.*)"
)


def snake(word):
    return re.sub(r"([a-z0-9])([A-Z])", r"\1_\2", word).lower()


def spelled(name):
    if name in OVERRIDES:
        return OVERRIDES[name]
    if name in OVERRIDES.values():
        return name
    if name[0].isupper():
        return "".join(part[0].upper() + part[1:] for part in re.split("[-_]", name))
    return "_".join(snake(part) for part in name.split("-"))


def declared(files):
    """The names that these files declare, but for answers to goals, which are named after the code."""
    names = {}
    for file in files:
        with open(file, encoding="utf-8") as text:
            for line in text:
                if line.strip().startswith("--") or line.startswith("use "):
                    continue
                found = DECLARED.match(line)
                if found and "goal." not in found.group(2):
                    names.setdefault(found.group(1), file)
    return names


def respelled(text, table, comment):
    """The text with the names of the table replaced, but for its strings and comments."""
    name = re.compile(r"(?<![\w'-])(" + "|".join(re.escape(n) for n in sorted(table, key=len, reverse=True)) + r")(?![\w'-])")
    skipped = re.compile(r'"(?:[^"\\\n]|\\.)*"|' + comment + r".*")
    out, at = [], 0
    for skip in skipped.finditer(text):
        out += [name.sub(lambda m: table[m.group(1)], text[at : skip.start()]), skip.group(0)]
        at = skip.end()
    return "".join(out) + name.sub(lambda m: table[m.group(1)], text[at:])


def main():
    proofs = sorted(glob.glob("crates/*/specs/**/*.antt", recursive=True) + glob.glob("crates/*/proofs/**/*.antt", recursive=True))
    sources = sorted(glob.glob("crates/*/src/**/*.rt", recursive=True))
    names = declared(proofs)
    table = {n: spelled(n) for n in names if spelled(n) != n}
    kept = {n for n in names if n not in table}
    for old, new in sorted(table.items()):
        if new in kept or list(table.values()).count(new) > 1:
            sys.exit(f"{names[old]}: {old} would fall together with another {new}")
    if "--list" in sys.argv:
        for old, new in sorted(table.items()):
            print(old, new)
        return
    if not table:
        return
    for file in proofs + sources:
        with open(file, encoding="utf-8") as stream:
            text = stream.read()
        new = respelled(text, table, "--(?= )" if file.endswith(".antt") else "//")
        if new != text:
            with open(file, "w", encoding="utf-8") as stream:
                stream.write(new)


main()
