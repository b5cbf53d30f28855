#!/usr/bin/env python3
"""Brings the repository's own definitions, lemmas and record fields to snake case, in every crate.

usage: python3 tools/snake_names.py [--list]      at the top of the repository, once, after the toolchain's port.py

A name counts as the repository's own if specs/ or a lemma file of proofs/ defines it. In proof files the names of src/
(functions, variables, fields, clauses), which stood there with dashes, get their underscores back, also as parts of the
names that the check makes. With --list it changes nothing and prints what it would rename, and which names would fall
together with others.
"""
import os
import re
import sys

# `first_of` is a tactic's name, so the definition that a change of case alone would call so gets another name.
OTHER = {"first_of": "first_in_order", "first-of": "first_in_order"}

DEFINED = re.compile(r"^\s*(?:(?:abbrev|unfoldable|pub|opaque|data|record|syntax)\s+)*(?P<n>[a-z][\w']*(?:-[\w']+)+)\s*:(?!:)")
# strings and comments, where only what stands between backquotes is code
APART = re.compile(r'"(?:\\.|[^"\\])*"|//[^\n]*|(?<![\w◌])--[^\n]*')
WORD = r"(?<![\w'’\-])%s(?![\w'\-])"


def files(root):
    for folder, dirs, names in os.walk(os.path.join(root, "crates")):
        dirs[:] = sorted(d for d in dirs if d != "out")
        for f in sorted(names):
            if f.endswith((".rt", ".antt")):
                yield os.path.join(folder, f)


def defines(path):
    parts = path.split(os.sep)
    if not path.endswith(".antt"):
        return False
    if "specs" in parts:
        return True
    return "proofs" in parts and parts.index("proofs") == len(parts) - 2


def in_code(change, text):
    """The text with `change` made to its code, and in comments to what stands between backquotes."""
    made, at = [], 0
    for m in APART.finditer(text):
        made.append(change(text[at : m.start()]))
        apart = m.group(0)
        made.append(apart if apart.startswith('"') else re.sub("`[^`]*`", lambda b: change(b.group(0)), apart))
        at = m.end()
    made.append(change(text[at:]))
    return "".join(made)


def crate_of(path):
    parts = path.split(os.sep)
    return parts[parts.index("crates") + 1]


def source_names():
    """For each crate the names with an underscore in its src/, as a pattern over their forms with dashes."""
    found = {}
    for p in files("."):
        if p.endswith(".rt"):
            text = open(p, encoding="utf-8").read()
            found.setdefault(crate_of(p), set()).update(re.findall(r"(?<![\w])[a-z][a-z0-9]*(?:_[a-z0-9]+)+(?![\w])", text))
    made = {}
    for c, names in found.items():
        dashed = {n.replace("_", "-"): n for n in names}
        made[c] = (re.compile(r"(?<![\w'])(" + "|".join(re.escape(n) for n in sorted(dashed, key=len, reverse=True)) + r")(?![\w'])"), dashed)
    return made


def main():
    sources = source_names()
    own = set()
    every = set()
    for p in files("."):
        text = open(p, encoding="utf-8").read()
        every.update(re.findall(r"[A-Za-z_][\w']*(?:-[\w']+)*", text))
        if defines(p):
            for line in text.split("\n"):
                m = DEFINED.match(line)
                if m:
                    own.add(m.group("n"))
    renamed = {n: n.replace("-", "_") for n in own}
    renamed.update(OTHER)
    together = sorted(n for n, to in renamed.items() if to in every and n not in OTHER)
    if "--list" in sys.argv:
        for n in sorted(renamed):
            print(n, renamed[n])
        print("fall together with a name that stands already:", " ".join(together))
        return
    pattern = re.compile(WORD % ("(" + "|".join(re.escape(n) for n in sorted(renamed, key=len, reverse=True)) + r")(?! \(Prim\.)"))
    for p in files("."):
        text = open(p, encoding="utf-8").read()
        new = in_code(lambda t: pattern.sub(lambda m: renamed[m.group(1)], t), text)
        if p.endswith(".antt") and "proofs" in p.split(os.sep) and crate_of(p) in sources:
            of, dashed = sources[crate_of(p)]
            new = in_code(lambda t: of.sub(lambda m: dashed[m.group(1)], t), new)
        # a name in snake case needs no quotes
        new = re.sub("«([a-z]\\w*)»", r"\1", new)
        if new != text:
            open(p, "w", encoding="utf-8").write(new)


main()
