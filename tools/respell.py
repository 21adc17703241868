#!/usr/bin/env python3
"""Respells this repository's own names of specs/ and proofs/ as today's Rattle spells names.

usage: python3 tools/respell.py        at the top of the repository, once, after the toolchain's own port script

A word is in snake case (`readWhole` becomes `read_whole`), a fact or a type in upper camel case
(`Packing-is-exact` becomes `PackingIsExact`). A dash between the names that a lemma is about stays.
Names of functions and types of src/ stay: none of them has a capital after a small letter, or a dash. A ghost member does change.
It goes over .antt and .rt files, must-fail edits and the pages (there only names in backquotes that the sources have).
It stops with nothing written where two names would fall together in one file.
"""
import glob
import re
import sys

TOKEN = re.compile(r"[A-Za-z_][\w\-'′?]*")
CAMEL = re.compile(r"([a-z0-9])([A-Z])")
QUOTED = re.compile(r"`[^`\n]*`")

# Facts that were spelled with dashes.
FACTS = """By-name Fit-is-tested Handed-back In-order Is-order Lists-are-exact One-by-one Orders-are-by-name
Packing-is-exact Read-back Rows-are-exact Setting-left Tables-stand Well-formed""".split()

# What the library calls by another word now.
OTHER = {"getD": "get_or"}

# Names that may fall together: fields of two records, and a word beside the folder of the function of that name.
APART = ("stable_id", "rows_in_range", "hex_of")


def snake(part):
    return OTHER.get(part) or CAMEL.sub(lambda m: m.group(1) + "_" + m.group(2).lower(), part)


def respelled(name):
    if name in FACTS:
        return "".join(part[0].upper() + part[1:] for part in name.split("-"))
    return "-".join(snake(part) if part[:1].islower() else part for part in name.split("-"))


def sources():
    for kind in ("specs/**/*.antt", "proofs/**/*.antt", "src/**/*.rt", "must-fail/*.edit"):
        yield from sorted(glob.glob("crates/*/" + kind, recursive=True))


def clashes(path, text):
    """Names of a file that would fall together: two that become one, or one that becomes a name that is there."""
    there = set(TOKEN.findall(re.sub(r"(--|//).*", "", text)))
    made = {}
    for name in sorted(there):
        made.setdefault(respelled(name), []).append(name)
    for new, old in made.items():
        # a function of src/ may stand beside the word of its own name
        if len(old) > 1 and new not in APART and not (path.endswith((".rt", ".edit")) and f"fn {new}" in text):
            yield f"{path}: {', '.join(old)} would all be {new}"


def main():
    files = {path: open(path, encoding="utf-8").read() for path in sources()}
    said = [line for path, text in files.items() for line in clashes(path, text)]
    if said:
        print("\n".join(said))
        return 1
    known = {name for text in files.values() for name in TOKEN.findall(text)}
    known = {name for name in known if respelled(name) != name}
    for path in ["README.md", *sorted(glob.glob("docs/*.md"))]:
        text = open(path, encoding="utf-8").read()
        new = QUOTED.sub(lambda m: TOKEN.sub(lambda t: respelled(t.group(0)) if t.group(0) in known else t.group(0), m.group(0)), text)
        if new != text:
            open(path, "w", encoding="utf-8").write(new)
    for path, text in files.items():
        new = TOKEN.sub(lambda m: respelled(m.group(0)), text)
        if new != text:
            open(path, "w", encoding="utf-8").write(new)
    return 0


if __name__ == "__main__":
    raise SystemExit(main())
