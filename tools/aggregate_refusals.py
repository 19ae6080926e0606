#!/usr/bin/env python3
"""Adds to crates/replay/data/cases files whose aggregate has one field changed, for each byte of its record:

    tools/aggregate_refusals.py crates/replay/data/cases

The plan: an aggregate by columns 0 and 1 with three aggregate columns, over a source of three columns, so that column 3 is one of the aggregate's and none
of its child's; and aggregates by one to eight of eight columns. The answers are those of document 02, P1, read field by field. The cases are written as tools/sample_vectors.py writes them, as calls of the order check.
"""
import sys

from paired_refusals import CHECK
from worked_examples import plan_file, record

SOURCE, AGGREGATE = 1, 15
ACCEPTED, KIND_OR_CHILDREN, FIELD, COLUMN = 0, 4, 6, 7

# What a byte of the aggregate's record may become, and the answer then; a byte that is not listed is unused, and must be zero.
CHANGES = {
    0: [(0, KIND_OR_CHILDREN), (16, KIND_OR_CHILDREN), (255, KIND_OR_CHILDREN)],
    1: [(0, KIND_OR_CHILDREN), (2, KIND_OR_CHILDREN)],
    12: [(0, FIELD), (1, FIELD), (9, FIELD)],  # with 1 the second key's bytes are left over
    13: [(0, FIELD), (1, FIELD), (2, ACCEPTED), (32, ACCEPTED), (33, FIELD)],
    16: [(1, COLUMN), (2, ACCEPTED), (3, COLUMN), (4, COLUMN), (32, COLUMN)],
    17: [(1, FIELD), (2, FIELD), (4, FIELD)],
    18: [(0, COLUMN), (2, ACCEPTED), (3, COLUMN), (255, COLUMN)],
    19: [(1, FIELD), (2, FIELD), (128, FIELD)],
}


def plan(groups, width, columns):
    return [bytearray(record(AGGREGATE, 1, keys=groups, width=width)), bytearray(record(SOURCE, streams=1, width=columns))]


def case(number, nodes):
    data = plan_file([bytes(n) for n in nodes])
    passes = 1 if number == ACCEPTED else 255  # an aggregate wants nothing, and so does a source
    return bytes([CHECK, number, passes, 0]) + len(data).to_bytes(2, "little") + bytes(14) + data


def changed(at, value):
    nodes = plan([0, 1], 5, 3)
    nodes[0][at] = value
    return nodes


def main(out):
    cases = [case(answer, changed(at, value)) for at in range(64) for value, answer in CHANGES.get(at, [(1, FIELD), (255, FIELD)])]
    cases += [case(ACCEPTED, plan(list(range(n)), n, 8)) for n in range(1, 9)]
    cases += [case(FIELD, plan(list(range(n)), n - 1, 8)) for n in range(1, 9)]
    with open(out, "ab") as f:
        f.write(b"".join(cases))


if __name__ == "__main__":
    main(sys.argv[1])
