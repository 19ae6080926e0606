#!/usr/bin/env python3
"""Adds to crates/replay/data/cases files with two faults each, so that each refusal is met in each place that 01's order makes visible:

    tools/paired_refusals.py crates/replay/data/cases

The plan: a union of two trees with a sort, a join and a second union below it, 15 nodes in three blocks. Each fault stands early or late
in the file. The answer is 01's: 1; 2 over all blocks; 3 over all; then 4, 5 and 6's single-record rules, each over all records; then from
the last node to the first unequal union, 7, 8. The cases are written as tools/sample_vectors.py writes them, as calls of the order check.
"""
import itertools
import sys

from worked_examples import NO_FETCH, plan_file, record

SOURCE, FILTER, UNION, SORT, HASH_JOIN = 1, 2, 4, 7, 12
LEFT_SEMI, INNER = 4, 0
CHECK = 5


def source():
    return bytearray(record(SOURCE, streams=1, width=20))


def sort():
    return bytearray(record(SORT, 1, fetch=NO_FETCH, keys=[0]))


def join():
    r = bytearray(record(HASH_JOIN, 2, keys=[0]))
    r[14] = LEFT_SEMI
    return r


def plan():
    """Node 0 a union; 2 and 8 sorts; 3 and 10 joins; 9 a union; 1, 5, 7 and 13 filters."""
    unary = lambda: bytearray(record(FILTER, 1))
    union = lambda: bytearray(record(UNION, 2))
    first = [unary(), sort(), join(), source(), unary(), source()]
    second = [unary(), sort(), union(), join(), source(), source(), unary(), source()]
    return [union()] + first + second


def set_byte(at, value):
    return lambda nodes, node: nodes[node].__setitem__(at, value)


def widen(nodes, union):
    """The source below one side of a union gets another width: node 4 for node 0, node 14 for node 9."""
    nodes[4 if union == 0 else 14][13] = 21


# A fault: its refusal, whether it is one of the last pass, its node (or block), and what it changes.
NODE_FAULTS = [
    (4, False, node, set_byte(0, 16)) for node in (1, 13)
] + [(5, False, 9, set_byte(1, 3))] + [
    (6, False, node, set_byte(15, 1)) for node in (1, 13)
] + [
    (6, True, node, widen) for node in (0, 9)
] + [
    (7, True, node, set_byte(16, 25)) for node in (2, 8)
] + [
    (8, True, node, set_byte(14, INNER)) for node in (3, 10)
]
BLOCK_FAULTS = [(2, False, block, None) for block in (0, 2)] + [(3, False, block, None) for block in (0, 2)]


def damaged(faults):
    nodes = plan()
    for number, last, place, change in faults:
        if change:
            change(nodes, place)
    data = bytearray(plan_file([bytes(n) for n in nodes]))
    for number, last, block, change in faults:
        at = block * 512
        if number == 3:
            data[at + 5] = 1
            data[at + 508 : at + 512] = sum(data[at : at + 508]).to_bytes(4, "little")
    for number, last, block, change in faults:
        if number == 2:
            data[block * 512 + 508] ^= 1
    return bytes(data)


def answer(faults):
    """The refusal that 01's order gives first."""
    early = [number for number, last, place, change in faults if not last]
    late = sorted((-place, number) for number, last, place, change in faults if last)
    return min(early) if early else late[0][1]


def case(number, data):
    return bytes([CHECK, number, 255, 0]) + len(data).to_bytes(2, "little") + bytes(14) + data


def main(out):
    faults = NODE_FAULTS + BLOCK_FAULTS
    groups = [[f] for f in faults] + [list(p) for p in itertools.combinations(faults, 2)]
    with open(out, "ab") as f:
        for group in groups:
            f.write(case(answer(group), damaged(group)))
        f.write(case(1, damaged(faults) + b"\0"))


if __name__ == "__main__":
    main(sys.argv[1])
