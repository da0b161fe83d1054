#!/usr/bin/env python3
"""Spells the names of this repository's definitions, fields and lemmas as today's Rattle does: words joined by _, a prime as an apostrophe.

usage: tools/respell.py [--check]      at the top of the repository

It goes over specs/, proofs/ and src/ of each crate, once, after the kit's port.py. A name that is also a library's stays in a file that imports
the library's. Names of functions, strings, inputs and outputs stay. Where a new name would meet a parameter or a local of a function whose
clauses cite it, or another name, it gets another ending (OTHER). --check writes nothing and lists the names that fall together.
"""
import collections
import os
import re
import sys

WORD = r"[^\s(){}.;,@\"«»`]+"
DECLARED = re.compile(r"(?m)^ *(?:(?:abbrev|pub|unfoldable|data|record|ruleset|private) +)*(" + WORD + r"(?: +" + WORD + r")*)(?: +(?:\{[^{}\n]*\}|\([^()\n]*\)))* *:(?= |$)")
INNER = re.compile(r"[{;(]\s*(" + WORD + r") : ")
HEADED = re.compile(r"(?m)^ *(?:pub +)?(?:data|record) +(?:pub +)?(" + WORD + r")")
USE = re.compile(r"(?m)^(?:ghost )?use ([^\s;{]+)\.\{([^}]*)\}")
# Names that would fall together with a parameter, a local or another name.
OTHER = {"bit-or": "bit_of_or", "bit-and": "bit_of_and"}


def texts(kinds):
    for folder, dirs, files in os.walk("crates"):
        dirs[:] = sorted(d for d in dirs if d not in ("out", "data"))
        for f in sorted(files):
            p = os.path.join(folder, f)
            if p.endswith(kinds):
                yield p


def read(p):
    with open(p, encoding="utf-8") as f:
        return f.read()


def own_names():
    names = set()
    for p in texts((".antt",)):
        if os.path.basename(p) == "Proof.antt":
            continue
        code = re.sub(r"(?m)--(?= |$).*$", "", read(p))
        for m in [*DECLARED.finditer(code), *HEADED.finditer(code), *INNER.finditer(code)]:
            names |= set(m[1].split())
    return {n for n in names if re.fullmatch(r"[A-Za-z][\w]*(?:-[\w]+)+'*", n) or ("-" in n and re.match(r"[^\W\d]", n))}


def new_name(n):
    return OTHER.get(n, n.replace("-", "_"))


def library_words(text):
    """The names that a file imports from a library, with dashes."""
    found = set()
    for m in USE.finditer(text):
        first = m[1].split(".")
        if first[0] != "Rattle" or (len(first) > 1 and first[1] in ("std", "core")):
            found |= {w.strip().split(" as ")[-1] for w in m[2].split(",")}
    return found


def turned(text, table, is_rust):
    kept = library_words(text)

    def one(m):
        w = m[0]
        return table[w] if w in table and w not in kept else w

    if not is_rust:
        return re.sub(WORD, one, text)
    # In Rust's text strings stay.
    parts = re.split(r'("(?:[^"\\\n]|\\.)*")', text)
    return "".join(s if i % 2 else re.sub(WORD, one, s) for i, s in enumerate(parts))


def main():
    check = "--check" in sys.argv[1:]
    table = {n: new_name(n) for n in own_names()}
    both = collections.defaultdict(set)
    for n, new in table.items():
        both[new].add(n)
    for new, olds in sorted(both.items()):
        if len(olds) > 1:
            print("together:", new, sorted(olds))
    count = 0
    for p in texts((".antt", ".rt")):
        text = read(p)
        words = set(re.findall(WORD, text))
        for n in sorted(words & set(table)):
            if table[n] in words:
                print("meets:", p, n, table[n])
        new = turned(text, table, p.endswith(".rt"))
        if new != text:
            count += 1
            if not check:
                with open(p, "w", encoding="utf-8") as f:
                    f.write(new)
    print(f"respell: {len(table)} names, {count} files")
    return 0


if __name__ == "__main__":
    raise SystemExit(main())
