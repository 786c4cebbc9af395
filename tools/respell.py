#!/usr/bin/env python3
"""Brings the repository's own antt names to one spelling: words in snake case, types in camel case.

usage: respell.py        at the top of the repository, once, right after the older text was turned to this Rattle's

It renames definitions, lemmas, fields and binders of specs/ and proofs/ that are spelled like `wordsAt` to `words_at`, in .antt and .rt
files and in the edits of must-fail/, comments too. Parts joined by a dash are turned one by one, and a part that begins with a capital
keeps it. Five lemmas, whose names would fall together with a definition's, keep their dash. Proofs of functions are called `f_spec`.
"""
import os
import re
import sys

WORD = re.compile(r"[^\s(){}\[\],;.«»λ:·`\"|]+")
# Lemmas whose snake-case name would be a definition's.
APART = {"node_at": "node-at", "operands_of": "operands-of", "row_words": "row-words", "sums_at": "sums-at", "by_names": "by-names"}
APART_IN = {
    "node_at": ("checker/proofs/Whole.antt", "compiler/proofs/Allocating.antt"),
    "operands_of": ("executor/proofs/Arms.antt",),
    "row_words": ("executor/proofs/Canonical.antt", "reader/proofs/Words.antt"),
    "sums_at": ("sums/proofs/Positions.antt", "sums/proofs/Summing.antt", "compiler/proofs/Units.antt"),
    "by_names": ("compiler/proofs/Inputs.antt", "compiler/proofs/prepare/Proof.antt"),
}


def snake(part):
    if not re.match(r"^[a-z][\w'?]*[A-Z]", part):
        return part
    part = re.sub(r"([a-z0-9])([A-Z])", r"\1_\2", part)
    return re.sub(r"([A-Z])([A-Z][a-z])", r"\1_\2", part).lower()


def turned(word):
    return "-".join(snake(it) for it in word.split("-"))


def files(endings):
    for folder, dirs, names in os.walk("crates"):
        dirs[:] = sorted(it for it in dirs if it != "out")
        for name in sorted(names):
            if name.endswith(endings):
                yield os.path.join(folder, name)


def main():
    if not os.path.isdir("crates"):
        sys.exit(__doc__)
    names = set()
    for path in files((".antt", ".rt")):
        with open(path, encoding="utf-8") as it:
            text = it.read()
        code = re.sub(r"(--|//)[^\n]*|\"[^\"\n]*\"", "", text)
        names |= {word for word in WORD.findall(code) if turned(word) != word}
    count = 0
    for path in files((".antt", ".rt", ".edit")):
        with open(path, encoding="utf-8") as it:
            text = it.read()
        new = text
        for word, apart in APART.items():
            if path.removeprefix("crates/") in APART_IN[word]:
                new = re.sub(rf"(?<![\w'.-]){word}(?![\w'-])", apart, new)
        new = WORD.sub(lambda m: turned(m[0]) if m[0] in names else m[0], new)
        if path.endswith("/Proof.antt"):
            function = os.path.basename(os.path.dirname(path)).lstrip("+")
            dashed = function.replace("_", "-")
            new = re.sub(rf"(?<![\w'-])(\+?){re.escape(dashed)}-spec(?![\w'-])", lambda m: m[1] + function + "_spec", new)
        if new != text:
            count += 1
            with open(path, "w", encoding="utf-8") as it:
                it.write(new)
    print(f"{len(names)} names, {count} files")


main()
