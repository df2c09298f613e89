#!/usr/bin/env python3
"""Brings the repository's own definitions, lemmas and record fields to the spelling of the library: words in snake case, types in camel case.

usage: python3 tools/respell.py [ROOT]        (once, after the kit's port.py; a second run changes nothing)

A name is the repository's own where a file of specs/ or proofs/ declares it. Names that a check makes (goals, steps, invariants, measures) keep
theirs, as do names of src/. Two names that fall together, or one that falls together with a name of the library, stop the script.
"""
import os
import re
import sys

NAME = r"[^\s(){}.;,:@\"«»λ→=|⟨⟩⌜⌝]+"
# a declaration: 'abbrev pub f : ..', 'pub record R (x : A) : ..', 'pub f : ..', a field 'pub f : ..', a label 'f = ..' of a let
DECLARED = re.compile(rf"^[ \t]*(?:(?:abbrev|unfoldable|pub|record|data|ruleset|private)[ \t]+)*({NAME})(?=(?:[ \t]+[({{][^\n]*?[)}}])*[ \t]*:[ \t])", re.M)
CLAUSED = re.compile(rf"^[ \t]*({NAME})(?:[ \t]+{NAME})*[ \t]+=[ \t]", re.M)
LOCAL = re.compile(rf"\blet[ \t]+({NAME})[ \t]+[:=]")
BOUND = re.compile(r"[({]([^(){}:]+?)[ \t]+:[ \t]")
LAMBDA = re.compile(r"λ[ \t]+([^.λ\n]+)\.")
SPAN = re.compile(r"`[^`\n]+`")
ALIAS = re.compile(rf"^use[ \t]+\S+[ \t]+as[ \t]+({NAME})", re.M)
MADE = re.compile(r"^(invariant|decreases)-|^loop-|^returns|-requires(-|$)|^(overflow|bounds|slice_bounds|nonzero|offset_bounds)_?|^(in|in_ok|in_err|if|then|else|match|index|prove)-|-(init|preserved|smaller)$|^(auto|type)-")
WORD = re.compile(r"(?<![\w'\-◌])[A-Za-z][\w'◌]*(?:-[\w'◌]+)+(?![\w'\-◌])")


def files(root):
    for folder, dirs, names in os.walk(os.path.join(root, "crates")):
        dirs[:] = sorted(d for d in dirs if d != "out")
        for n in sorted(names):
            if n.endswith((".antt", ".rt")):
                yield os.path.join(folder, n)


def pages(root):
    docs = os.path.join(root, "docs")
    yield os.path.join(root, "README.md")
    if os.path.isdir(docs):
        yield from (os.path.join(docs, n) for n in sorted(os.listdir(docs)) if n.endswith(".md"))


def spelled(name):
    """Camel case for what begins with a capital, else snake case."""
    if name[0].isupper():
        return "".join(p[:1].upper() + p[1:] for p in name.split("-"))
    return re.sub(r"(?<=[a-z])([A-Z])", lambda m: "_" + m.group(1).lower(), name.replace("-", "_")) if not name.startswith("_") else name


def goals(text):
    """The names that a file answers because a check asks for them."""
    return set(re.findall(rf"^pub[ \t]+({NAME})[ \t]*:[ \t]*goal\.", text, re.M)) | set(re.findall(rf"^abbrev pub[ \t]+({NAME})[ \t]*:[ \t]*goal\.", text, re.M))


def library(text):
    """The names that a file takes from the library."""
    out = set()
    for m in re.finditer(r"use\s+Rattle\.(?:std|core|log)\b[^{;]*\{([^}]*)\}", text):
        for item in m.group(1).split(","):
            out |= set(item.split()[:1]) | set(item.split()[-1:])
    return out


def main():
    root = sys.argv[1] if len(sys.argv) > 1 else os.path.join(os.path.dirname(os.path.realpath(__file__)), "..")
    texts = {p: open(p, encoding="utf-8").read() for p in files(root)}
    own, stated, asked, theirs, seen = set(), set(), set(), set(), set()
    for p, t in texts.items():
        theirs |= library(t)
        if p.endswith(".antt"):
            asked |= goals(t)
            bare = re.sub(r"--[^\n]*", "", t)
            own |= set(DECLARED.findall(bare)) | set(LOCAL.findall(bare)) | set(CLAUSED.findall(bare)) | set(ALIAS.findall(bare))
            own |= {n for m in (*BOUND.finditer(bare), *LAMBDA.finditer(bare)) for n in m.group(1).split()}
            if "/specs/" in p or os.path.basename(os.path.dirname(p)) == "proofs":
                stated |= set(DECLARED.findall(bare))
        seen |= set(re.findall(r"[\w'◌]+", t))
    own = {n for n in own if "-" in n and WORD.fullmatch(n)}
    table = {n: spelled(n) for n in own if n not in asked and n not in theirs and (n in stated or not MADE.search(n))}
    to = {}
    for n, new in sorted(table.items()):
        if new in to:
            sys.exit(f"respell: {n} and {to[new]} fall together")
        to[new] = n
    for new, n in sorted(to.items()):
        if new in theirs:
            sys.exit(f"respell: {n} falls together with the library's {new}")
        if new in seen:
            print(f"look: {n} -> {new}: the new name stands in the files already")
    for n in sorted(own - set(table)):
        print(f"kept: {n}")
    turn = lambda m: table.get(m.group(0), m.group(0))
    changed = 0
    for p, t in texts.items():
        new = WORD.sub(turn, t)
        if new != t:
            changed += 1
            with open(p, "w", encoding="utf-8") as f:
                f.write(new)
    for p in pages(root):
        with open(p, encoding="utf-8") as f:
            t = f.read()
        new = SPAN.sub(lambda m: WORD.sub(turn, m.group(0)), t)
        if new != t:
            changed += 1
            with open(p, "w", encoding="utf-8") as f:
                f.write(new)
    print(f"respell: {len(table)} names, {changed} files")


main()
