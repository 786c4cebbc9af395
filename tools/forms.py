#!/usr/bin/env python3
"""forms.py [PATH]: the places in crates/*/src that a form of the language may serve better, by the points of docs/DESIGN-PASS.md, a line for
each crate and a sum. It counts by text; what a count means, and which places were judged to be none, is on that page."""
import glob
import os
import re
import sys

top = sys.argv[1] if len(sys.argv) > 1 else os.path.join(os.path.dirname(os.path.abspath(__file__)), "..")


def code(path):
    """The text without comments."""
    return re.sub(r"//[^\n]*", "", open(path).read())


def functions(text):
    """Name, parameters, clauses and body of each function."""
    for m in re.finditer(r"\bfn (\w+)(?:<[^>(]*>)?\(", text):
        depth, i = 1, m.end()
        while depth:
            depth += {"(": 1, ")": -1}.get(text[i], 0)
            i += 1
        params = text[m.end():i - 1]
        # clauses in braces, then the body's brace
        rest, clauses = text[i:], []
        while True:
            c = re.match(r"[^{;]*?(requires|ensures)\b[^{]*\{", rest, re.S)
            if not c:
                break
            depth, j = 1, c.end()
            while depth:
                depth += {"{": 1, "}": -1}.get(rest[j], 0)
                j += 1
            clauses.append((c[1], rest[c.end():j - 1]))
            rest = rest[j:]
        b = re.match(r"[^{;]*\{", rest)
        body = ""
        if b:
            depth, j = 1, b.end()
            while depth and j < len(rest):
                depth += {"{": 1, "}": -1}.get(rest[j], 0)
                j += 1
            body = rest[b.end():j - 1]
        parts, depth, part = [], 0, ""
        for ch in params:
            depth += {"(": 1, "[": 1, "<": 1, ")": -1, "]": -1, ">": -1}.get(ch, 0)
            if ch == "," and depth == 0:
                parts.append(part.strip())
                part = ""
            else:
                part += ch
        parts = [p for p in parts + [part.strip()] if p]
        yield m[1], parts, clauses, body


counts = {
    "1 enums": lambda t, f: len(re.findall(r"\benum \w+", t)),
    "1 enums like Option or Result": lambda t, f: sum(
        len(re.findall(r"\b\w+\b\s*(?:\([^)]*\))?,", e)) in (2, 3) and bool(re.search(r"Refused|Nothing|Over|Short|Wrong|Malformed", e))
        for e in re.findall(r"\benum \w+ \{(.*?)\n\}", t, re.S)),
    "1 numbers of refusals": lambda t, f: len(re.findall(r"Refused\(\d+|number: \d+", t)),
    "2 functions alike but for names and numbers": lambda t, f: 0,
    "3 while": lambda t, f: len(re.findall(r"\bwhile\b", t)),
    "3 while that counts by one": lambda t, f: len(re.findall(r"\bwhile (\w+) < [^{]*\{(?:(?!\bwhile\b).)*?\b\1 \+= 1;", t, re.S)) + len(re.findall(r"\bwhile 0 < (\w+) \{(?:(?!\bwhile\b).)*?\b\1 -= 1;", t, re.S)),
    "4 conversions by a function": lambda t, f: len(re.findall(r"\b(?:wide|wide16|wide32|wide64)\(", t)),
    "4 min, max, choice, copy by hand": lambda t, f: len(re.findall(r"\b(?:higher|sooner|capped|either|end_of|copy|clear_slots|hold)\(", t)),
    "4 tests by if and bool": lambda t, f: len(re.findall(r"\{\s*(?:true|false)\s*\}|return (?:true|false);|=> (?:true|false),", t)),
    "5 functions of 6 or more parameters": lambda t, f: sum(len(p) >= 6 for _, p, _, _ in f),
    "5 parameters of these": lambda t, f: sum(len(p) for _, p, _, _ in f if len(p) >= 6),
    "6 functions lent 2 or more arrays": lambda t, f: sum(len(re.findall(r"\[\w+; \w+\]", ", ".join(p))) >= 2 for _, p, _, _ in f),
    "7 matches on a pass, version, operator or kind": lambda t, f: len(re.findall(r"\bmatch (?:pass|version|o|k|kind)\b", t)),
}

crates = sorted(os.path.basename(c) for c in glob.glob(os.path.join(top, "crates", "*")) if os.path.isdir(c))
table = {}
for crate in crates:
    texts = [code(p) for p in sorted(glob.glob(os.path.join(top, "crates", crate, "src", "*.rt")))]
    for t in texts:
        fs = list(functions(t))
        for name, count in counts.items():
            table[name, crate] = table.get((name, crate), 0) + count(t, fs)
    # twins: bodies that are equal once names and numbers are blanked
    bodies = {}
    for t in texts:
        for name, params, _, body in functions(t):
            shape = re.sub(r"\b[A-Za-z_]\w*\b", "x", re.sub(r"\b\d\w*\b", "n", body))
            shape = re.sub(r"\s+", "", shape)
            if len(shape) > 40:
                bodies.setdefault((len(params), shape), []).append(name)
    table["2 functions alike but for names and numbers", crate] = sum(len(v) for v in bodies.values() if len(v) > 1)
    if "-v" in sys.argv:
        for v in bodies.values():
            if len(v) > 1:
                print(crate, " ".join(v))
proofs = {
    "8 proofs by hand (Proof.antt)": lambda c: len(glob.glob(os.path.join(top, "crates", c, "proofs", "**", "Proof.antt"), recursive=True)),
    "8 answers": lambda c: sum(len(re.findall(r"^pub \S+ : goal\.", open(p).read(), re.M)) for p in glob.glob(os.path.join(top, "crates", c, "proofs", "**", "Answers.antt"), recursive=True)),
    "8 lines of proofs": lambda c: sum(len(open(p).read().splitlines()) for p in glob.glob(os.path.join(top, "crates", c, "proofs", "**", "*.antt"), recursive=True)),
}
for name, count in proofs.items():
    for crate in crates:
        table[name, crate] = count(crate)
for name in list(counts) + list(proofs):
    row = {c: table.get((name, c), 0) for c in crates}
    print(f"{name}: {sum(row.values())}  (" + ", ".join(f"{c} {n}" for c, n in row.items() if n) + ")")
