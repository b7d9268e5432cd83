#!/usr/bin/env python3
"""Brings the repository's own definitions and lemmas to one spelling.

A name of specs/ or proofs/ that is written with dashes goes to snake case, or to camel case where it begins
with a capital; an inner capital letter goes as well. Names that the checker makes (of goals, steps, loops) stay, and so do the names of
the library. It goes over the files of specs/ and proofs/, and over the clauses and `ghost use` lines of src/.
Run it once, at the top, after the toolchain's own script for older repositories; `--list` only says what it
would do.
"""
import glob
import re
import sys

TOKEN = r"[^\s(){}\[\],;.λ«»]+"
SIGNATURE = re.compile(r"^\s*(?:(?:pub|abbrev|unfoldable) )*(%s) : (.*)" % TOKEN)
DECLARED = re.compile(r"^\s*(?:pub )?(?:record|data|ruleset) (%s)" % TOKEN)
# Signatures of goals, invariants and measures: the checker chooses their names.
MADE = re.compile(r"^(goal|need|Given|Goals)\.")


def antt_files():
    return sorted(
        f
        for kind in ("specs", "proofs")
        for f in glob.glob("crates/*/%s/**/*.antt" % kind, recursive=True)
    )


def spelt(name):
    parts = name.split("-")
    if name[0].isupper():
        return "".join(p[:1].upper() + p[1:] for p in parts)
    parts = ["get_or" if p == "getD" else p for p in parts]
    return "_".join(re.sub(r"(?<=[a-z])([A-Z])", lambda m: "_" + m.group(1).lower(), p) for p in parts)


def own_names():
    names = {}
    for f in antt_files():
        for line in open(f):
            m = SIGNATURE.match(line)
            if m and not MADE.match(m.group(2)):
                names.setdefault(m.group(1), f)
            m = DECLARED.match(line)
            if m:
                names.setdefault(m.group(1), f)
    return {n: spelt(n) for n in names if "-" in n and re.match(r"^[A-Za-z]", n)}


def respell(text, names):
    """Each token that is one of the names."""
    word = re.compile(r"(?<![^\s(){}\[\],;.λ«»])(%s)(?![^\s(){}\[\],;.λ«»])" % "|".join(
        sorted(map(re.escape, names), key=len, reverse=True)))
    return word.sub(lambda m: names[m.group(1)], text)


def respell_source(text, names):
    """Clauses, ghost items and ghost imports alone."""
    out, depth, ghost = [], 0, False
    for line in text.split("\n"):
        starts = re.match(r"^\s*(?:ghost\b|pub ghost\b|requires\b|ensures\b|#!?\[tactic)", line)
        if starts or depth > 0:
            out.append(respell(line, names))
            depth += line.count("{") - line.count("}")
        else:
            out.append(line)
    return "\n".join(out)


def main():
    names = own_names()
    if "--list" in sys.argv:
        for n in sorted(names):
            print(n, names[n])
        return
    for f in antt_files():
        text = open(f).read()
        turned = respell(text, names)
        if turned != text:
            open(f, "w").write(turned)
    for f in sorted(glob.glob("crates/*/src/**/*.rt", recursive=True)):
        text = open(f).read()
        turned = respell_source(text, names)
        if turned != text:
            open(f, "w").write(turned)


main()
