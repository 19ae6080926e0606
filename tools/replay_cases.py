#!/usr/bin/env python3
"""Makes crates/replay/data/cases anew, and crates/replay/stdout from it:

    tools/replay_cases.py VECTORS [--kept]

First the vectors' sample, files of two faults and of a changed aggregate (the tools beside this one), then `differential sample`: the pinned plans and
the plans chosen by what they notice. With --kept that takes the mutants' programs of an earlier run.
"""
import os
import subprocess
import sys

ROOT = os.path.join(os.path.dirname(os.path.abspath(__file__)), "..")
CASES = os.path.join(ROOT, "crates/replay/data/cases")


def tool(name, *words):
    subprocess.run([os.path.join(ROOT, "tools", name), *words], check=True)


def main(vectors, *options):
    tool("sample_vectors.py", vectors, CASES)
    tool("paired_refusals.py", CASES)
    tool("aggregate_refusals.py", CASES)
    manifest = os.path.join(ROOT, "differential/Cargo.toml")
    subprocess.run(["cargo", "run", "-q", "--release", "--manifest-path", manifest, "--", "sample", os.path.abspath(CASES), *options], check=True)
    tool("count_cases.py", CASES, os.path.join(ROOT, "crates/replay/stdout"))


if __name__ == "__main__":
    main(*sys.argv[1:])
