#!/usr/bin/env python3
"""Counts the cases of crates/replay/data/cases and writes what the program `replay` is to print:

    tools/count_cases.py crates/replay/data/cases crates/replay/stdout

The counts are of the cases alone, and none is wrong. With one argument it prints them, by call too.
"""
import collections
import sys

from sample_vectors import CALLS

HEADER = 20


def headers(data):
    """The header of each case; behind it stand the file and the answer."""
    at = 0
    while at < len(data):
        head = data[at : at + HEADER]
        yield head
        at += HEADER + int.from_bytes(head[4:6], "little") + int.from_bytes(head[6:8], "little")


def told(heads):
    """What replay prints: a check or a rewrite counts as such where it is accepted."""
    accepted = [CALLS[head[0]] for head in heads if head[1] == 0]
    checks = accepted.count("check")
    counts = [(len(heads), "cases"), (len(heads) - len(accepted), "refused"), (checks, "order checks"), (len(accepted) - checks, "rewrites"), (0, "wrong")]
    return "".join(f"{n} {what}\n" for n, what in counts)


def main(cases, out=None):
    heads = list(headers(open(cases, "rb").read()))
    if out:
        open(out, "w").write(told(heads))
        return
    print(told(heads), end="")
    calls = collections.Counter((CALLS[head[0]], "refused" if head[1] else "accepted") for head in heads)
    for call in CALLS:
        print(f"{call}: {calls[call, 'accepted']} accepted, {calls[call, 'refused']} refused")
    numbers = collections.Counter(head[1] for head in heads if head[1])
    print("refusals: " + ", ".join(f"{number}: {n}" for number, n in sorted(numbers.items())))


if __name__ == "__main__":
    main(*sys.argv[1:])
