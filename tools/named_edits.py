#!/usr/bin/env python3
"""Says whether docs/DEMANDS.md is true of the tree in what a program can see: each must-fail edit that it names is one of the crate named last before it,
and each path that it names is there.

    tools/named_edits.py    what is not true, and exit status 1; nothing where all is true
"""
import glob
import os
import re
import sys

ROOT = os.path.join(os.path.dirname(os.path.abspath(__file__)), "..")
DEMANDS = "docs/DEMANDS.md"


def crates():
    return [line.split(":")[0].split()[0] for line in open("crates.txt") if line.split("#")[0].strip()]


def edits():
    """Each edit's name with the crates that have one of that name."""
    found = {}
    for path in glob.glob("crates/*/must-fail/*.edit"):
        found.setdefault(os.path.basename(path)[: -len(".edit")], set()).add(path.split("/")[1])
    return found


def wrong_edits(text, known):
    """The first of some edits stands right behind its crate's name; the crate holds for those that follow in the paragraph."""
    named = re.compile(r"(?:\b(" + "|".join(sorted(crates(), key=len, reverse=True)) + r") )?`([^`]+)`")
    for paragraph in re.split(r"\n\n|\n- ", text):
        crate = None
        for match in named.finditer(" ".join(paragraph.split())):
            crate = match.group(1) or crate
            name = match.group(2)
            if name in known and crate not in known[name]:
                yield f"{name} is an edit of {' and '.join(sorted(known[name]))}, not of {crate}"


def main():
    os.chdir(ROOT)
    text = open(DEMANDS).read()
    wrong = list(wrong_edits(text, edits()))
    wrong += [f"not there: {path}" for path in re.findall(r"`((?:crates|docs|tools)/[^`]+)`", text) if not os.path.exists(path)]
    for line in wrong:
        print(f"{DEMANDS}: {line}")
    sys.exit(1 if wrong else 0)


main()
