#!/usr/bin/env python3
"""Respells the names of this repository's own definitions and lemmas, once, after the toolchain's port.py.

Run at the top of the checkout. A definition of specs/ gets snake case. In a lemma's name a dash stays where it joins
two names of functions, as in length-parts, and becomes _ elsewhere. Functions of src/, goals and comments keep theirs.
Prints each renaming, and stops where two names would fall together.
"""
import os
import re
import sys

WORD = r"[\w'·-]"
STD = set("length take drop set get_or append replicate reverse map sum put_mid between lines decimal".split())
PLAIN = {"empty", "kept"}  # words that stand for themselves in a lemma's name, though functions have them too
OLD = {"getD": "get_or", "nth": "slice_get"}
HEAD = re.compile(
    r"^\s*(?:(?:abbrev|unfoldable|data|record|pub)\s+)*([^\s:(){}]+)(?:\s*[({][^)}]*[)}])*\s*:\s+(.*)$")


def files(ends):
    for folder, dirs, names in os.walk("crates"):
        dirs[:] = [d for d in dirs if d not in ("out", "target")]
        for n in sorted(names):
            if n.endswith(ends):
                yield os.path.join(folder, n)


def defined():
    """The names with a dash that are defined, in specs/ and in proofs/, and all names of specs/."""
    specs, lemmas, known = set(), set(), set()
    for p in files(".antt"):
        for line in open(p, encoding="utf-8"):
            m = HEAD.match(line)
            if not m or line.lstrip().startswith(("--", "let ", "use ")):
                continue
            name, of = m.groups()
            if re.match(r"(goal|given|need)\b", of):
                continue
            if "/specs/" in p and line.lstrip().startswith(("abbrev", "unfoldable")):
                known.add(name.replace("-", "_"))
            if "-" in name and re.fullmatch(WORD + "+", name):
                (specs if "/specs/" in p else lemmas).add(name)
    return specs, lemmas - specs, known


def lemma(name, known):
    parts, pieces = [OLD.get(p, p) for p in name.split("-")], []
    while parts:
        n = next((n for n in range(len(parts), 0, -1) if "_".join(parts[:n]) in known), 0)
        pieces.append(("_".join(parts[: n or 1]), n > 0))
        parts = parts[n or 1:]
    text = pieces[0][0]
    for (_, a), (word, b) in zip(pieces, pieces[1:]):
        text += ("-" if a and b else "_") + word
    return text


def respelled(text, names, comment):
    """The text with the names respelled, outside comments and strings."""
    parts = re.split(r"(%s[^\n]*|b?\"(?:[^\"\\\n]|\\.)*\")" % comment, text)
    token = re.compile(r"(?<!%s)(%s)(?!%s)" % (WORD, "|".join(map(re.escape, sorted(names, key=len, reverse=True))), WORD))
    for i in range(0, len(parts), 2):
        parts[i] = token.sub(lambda m: names[m[1]], parts[i])
    return "".join(parts)


def main():
    specs, lemmas, known = defined()
    names = {n: n.replace("-", "_") for n in specs}
    names.update({n: lemma(n, (known | STD) - PLAIN) for n in lemmas})
    names = {a: b for a, b in names.items() if a != b}
    names.update({"given·names": "goal"})
    clash = sorted(b for b in names.values() if list(names.values()).count(b) > 1)
    if clash:
        sys.exit("names that fall together: " + ", ".join(clash))
    for p in files((".antt", ".rt")):
        with open(p, encoding="utf-8") as f:
            old = f.read()
        new = respelled(old, names, "//" if p.endswith(".rt") else "--")
        if new != old:
            with open(p, "w", encoding="utf-8") as f:
                f.write(new)
    for a, b in sorted(names.items()):
        print(a, "->", b)


main()
