#!/usr/bin/env python3
"""Respells this repository's own definitions and lemmas as today's Rattle has it: words in snake case, types and facts in camel case.

usage: python3 tools/respell.py     at the top of the repository, once, after the toolkit's port.py has run

A name is one of the repository's own if a file of a crate's specs/ or proofs/ declares it: a definition, a lemma, a type, a field or
a constructor. Names that Rattle makes (what an answer file answers), functions of src/, strings, inputs and outputs keep theirs. It
goes over src/, specs/, proofs/ and must-fail/, and prints each name that would fall together with another; such a name is left.
"""

import glob
import re

NAME = r'[^\s(){}.;,@"«»]+'
MARKS = r"(?:(?:pub|abbrev|unfoldable|pattern) )*"
ANSWERS = re.compile(r"/(Answers|Invariants|Choices|Proof)\.antt$")
# Lemmas that stand beside answers, in the same file.
BESIDE_ANSWERS = {"found-in-row", "search-in-row", "shown-next"}
# What Rattle makes, though a file of ours declares the name too.
MADE = re.compile(r"^(loop|returns|invariant|decreases|overflow|bounds|in|then|else|if)-")


def declared():
    """Every name with a dash that a file of specs/ or proofs/ declares, answers aside."""
    found = set()
    for path in sorted(glob.glob("crates/*/specs/**/*.antt", recursive=True) + glob.glob("crates/*/proofs/**/*.antt", recursive=True)):
        for line in open(path, encoding="utf-8"):
            kind = re.match(rf"\s*(?:pub )?(?:record|data) ({NAME})", line)
            signature = re.match(rf"\s*{MARKS}((?:{NAME} )*{NAME})\s*:\s", line)
            names = [kind[1]] if kind else signature[1].split() if signature else []
            for name in names:
                if "-" in name.strip("-") and (not ANSWERS.search(path) or name in BESIDE_ANSWERS):
                    found.add(name)
    own = {"then-all", "then-byte", "then-part", "in-links"}
    return {name for name in found if name in own or not MADE.match(name)}


def respelled(name):
    """A fact or a type in camel case, anything else in snake case."""
    if name[0].isupper():
        return "".join(part[0].upper() + part[1:] for part in name.split("-"))
    return name.replace("-", "_")


def files():
    for pattern in ("src/**/*.rt", "specs/**/*.antt", "proofs/**/*.antt", "must-fail/*.edit"):
        yield from sorted(glob.glob("crates/*/" + pattern, recursive=True))


def main():
    texts = {path: open(path, encoding="utf-8").read() for path in files()}
    words = set()
    for path, text in texts.items():
        if path.endswith(".antt"):
            words |= set(re.findall(NAME, text))
    names = {}
    for name in sorted(declared()):
        new = respelled(name)
        if new in names.values():
            print(f"left: {name}: another name is spelled {new} already")
            continue
        if new in words:
            print(f"look: {name}: {new} stands somewhere already")
        names[name] = new
    one = re.compile(rf"(?<![^\s(){{}}.;,@\"«»⌜⟦]){NAME}")
    for path, text in texts.items():
        new = one.sub(lambda found: names.get(found[0], found[0]), text)
        if new != text:
            open(path, "w", encoding="utf-8").write(new)
            print(path)
    print(f"{len(names)} names")


if __name__ == "__main__":
    main()
