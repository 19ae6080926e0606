#!/usr/bin/env python3
"""Makes the plan files of document 01's worked examples, of one of docs/DECISIONS.md and of document 02's P1, from 01's section 'A plan file comes in':

    tools/worked_examples.py

writes crates/worked_examples/data/*, the stdin of crates/plan_list, and the stdin and the expected stdout of crates/plan_show. Plans are lists of records,
parent first.
"""
import os

CRATES = os.path.join(os.path.dirname(os.path.abspath(__file__)), "..", "crates")

SOURCE, FILTER, PROJECTION, REPARTITION, COALESCE, SORT, OUTPUT_REQUIREMENT, AGGREGATE = 1, 2, 3, 5, 6, 7, 13, 15
# 01's names with hyphens for spaces, and 02's for kind 15; the kinds with a fetch are 6-10, 13 and 14
KINDS = ("source filter projection union repartition coalesce sort merge global-limit local-limit sort-merge-join hash-join"
         " output-requirement partial-sort aggregate").split()
WITH_FETCH = (6, 7, 8, 9, 10, 13, 14)
NO_FETCH = 4294967295
DESCENDING = 1
PRESERVE = 1
HASH = 2
SINGLE = 1
LEFT_SEMI, RIGHT_ANTI = 4, 7

# Every kind, once at least. By node: depth, kind, streams, fetch and keys as 01 ('Worked on paper') has them printed, the streams by 'Facts of a node';
# then what else its record has. A union has three children and each kind of join two, so that the node after a leaf stands two or three levels higher;
# keys have all four options; columns and streams have one digit or two; a sort with a preserve mark keeps its child's streams.
EVERY_KIND = [
    (0, "output-requirement", 1, "-", "0al,1dl,2af,3df", {"role": SINGLE}),
    (1, "global-limit", 1, "20", "-", {"skip": 3}),
    (2, "merge", 1, "-", "3df", {}),
    (3, "union", 73, "-", "-", {}),
    (4, "sort-merge-join", 1, "-", "0af,2dl", {"role": LEFT_SEMI, "tail": [31, 0]}),
    (5, "sort", 1, "-", "0af,2dl", {}),
    (6, "coalesce", 1, "4294967294", "-", {}),
    (7, "source", 3, "-", "-", {"width": 4}),
    (5, "partial-sort", 64, "9", "31af,0dl,10df", {"marks": PRESERVE, "role": 1}),
    (6, "source", 64, "-", "31af", {"width": 32}),
    (4, "hash-join", 8, "-", "1al", {"role": RIGHT_ANTI, "tail": [2]}),
    (5, "coalesce", 1, "-", "-", {}),
    (6, "aggregate", 2, "-", "1al,0al", {"width": 3}),
    (7, "filter", 2, "-", "-", {}),
    (8, "source", 2, "-", "1dl,0af", {"width": 2}),
    (5, "repartition", 8, "-", "2al,0al", {"marks": HASH}),
    (6, "local-limit", 5, "0", "1df", {}),
    (7, "source", 5, "-", "1df,2af,3dl,0al", {"width": 4}),
    (4, "sort", 64, "7", "2df", {"marks": PRESERVE}),
    (5, "projection", 64, "-", "-", {"width": 4, "tail": [1, 1, 0, 2]}),
    (6, "repartition", 64, "-", "-", {"marks": PRESERVE}),
    (7, "source", 1, "-", "0al", {"width": 3}),
]


def record(kind, children=0, streams=0, marks=0, fetch=0, keys=(), width=0, distribution=0):
    """One record of 64 bytes. A key is a column, ascending with nulls last, or a pair of a column and its options."""
    r = bytearray(64)
    r[0], r[1], r[2], r[3] = kind, children, streams, marks
    r[4:8] = fetch.to_bytes(4, "little")
    r[12], r[13], r[14] = len(keys), width, distribution
    for i, key in enumerate(keys):
        r[16 + 2 * i : 18 + 2 * i] = key if isinstance(key, tuple) else (key, 0)
    return bytes(r)


def source(streams, keys):
    return record(SOURCE, streams=streams, keys=keys, width=3)


def wants(*keys):
    """An output requirement of the keys, over one stream known [2,0]."""
    return [record(OUTPUT_REQUIREMENT, 1, fetch=NO_FETCH, keys=keys), source(1, [2, 0])]


def chain(nodes):
    """So many nodes: filters, one over the other, over a source."""
    return [record(FILTER, 1)] * (nodes - 1) + [source(1, [2])]


def growing(layers):
    """Reading 4's tree, 13 single [1] / (rr2 p / 13 single)^layers / sort[0] p f9 / s2: its root's step puts a node into each layer."""
    single = record(OUTPUT_REQUIREMENT, 1, fetch=NO_FETCH, distribution=SINGLE)
    layer = [record(REPARTITION, 1, streams=2, marks=PRESERVE), single]
    root = record(OUTPUT_REQUIREMENT, 1, fetch=NO_FETCH, keys=[1], distribution=SINGLE)
    return [root] + layer * layers + [record(SORT, 1, marks=PRESERVE, fetch=9, keys=[0]), source(2, [])]


def surveyor(streams, known):
    """The list shows the aggregate column, the sort goes by the second group column: projection [2] / sort [1] / aggregate [0,1] and one more / a source."""
    projection = bytearray(record(PROJECTION, 1, width=1))
    projection[32] = 2
    return [bytes(projection), record(SORT, 1, fetch=NO_FETCH, keys=[1]), record(AGGREGATE, 1, keys=[0, 1], width=3), source(streams, known)]


def key_bytes(text):
    """A key's two bytes, from its column, a or d for the direction, f or l for the nulls."""
    return int(text[:-2]), "ad".index(text[-2]) + 2 * "lf".index(text[-1])


def child_count(rows, at):
    """How many rows stand one below the row, before the next that does not stand below it."""
    depths = [row[0] for row in rows[at + 1 :]]
    end = next((i for i, depth in enumerate(depths) if depth <= rows[at][0]), len(depths))
    return depths[:end].count(rows[at][0] + 1)


def row_record(rows, at):
    """The record of one row. Only sources and repartitions have streams of their own."""
    _, name, streams, fetch, keys, more = rows[at]
    kind = KINDS.index(name) + 1
    r = bytearray(record(
        kind, child_count(rows, at), streams if kind in (SOURCE, REPARTITION) else 0, more.get("marks", 0),
        0 if kind not in WITH_FETCH else NO_FETCH if fetch == "-" else int(fetch),
        [] if keys == "-" else [key_bytes(key) for key in keys.split(",")], more.get("width", 0), more.get("role", 0)
    ))
    r[8:12] = more.get("skip", 0).to_bytes(4, "little")
    tail = more.get("tail", [])
    r[32 : 32 + len(tail)] = bytes(tail)
    return bytes(r)


def listing(rows):
    """What 01 has printed of the plan."""
    lines = ["node depth kind streams fetch keys"]
    for number, (depth, name, streams, fetch, keys, _) in enumerate(rows):
        lines.append(f"{number} {depth} {name} {streams} {fetch} {keys}")
    return "".join(line + "\n" for line in lines).encode()


def plan_file(records):
    """The blocks of 512 bytes, of seven records each."""
    parts = [records[at : at + 7] for at in range(0, len(records), 7)]
    blocks = []
    for number, part in enumerate(parts):
        head = number.to_bytes(2, "little") + len(parts).to_bytes(2, "little") + bytes([len(part), 0, 0, 0])
        block = (head + b"".join(part)).ljust(508, b"\0")
        blocks.append(block + sum(block).to_bytes(4, "little"))
    return b"".join(blocks)


def write(path, data):
    with open(os.path.join(CRATES, path), "wb") as f:
        f.write(data)


def main():
    examples = {
        "bytes_0": b"",
        "bytes_511": plan_file(chain(1))[:511],
        "blocks_19": plan_file(chain(127)),
        "nodes_126": plan_file(chain(126)),
        "wants_2": plan_file(wants(2)),
        "wants_0": plan_file(wants(0)),
        "wants_2_descending": plan_file(wants((2, DESCENDING))),
        "sorted_already": plan_file([record(SORT, 1, fetch=NO_FETCH, keys=[2]), source(1, [2, 0])]),
        "sorted_already_fetch_5": plan_file([record(SORT, 1, fetch=5, keys=[2]), source(1, [2, 0])]),
        "sort_over_coalesce": plan_file([
            record(SORT, 1, fetch=5, keys=[2]), record(FILTER, 1), record(COALESCE, 1, fetch=NO_FETCH), source(2, [2])
        ]),
        "growing_125": plan_file(growing(61)),
        "surveyor": plan_file(surveyor(1, [])),
        "surveyor_known": plan_file(surveyor(2, [1])),
    }
    for name, data in examples.items():
        write("worked_examples/data/" + name, data)
    write("plan_list/stdin", plan_file([record(SORT, 1, fetch=NO_FETCH, keys=[2]), source(2, [2, 0])]))
    write("plan_show/stdin", plan_file([row_record(EVERY_KIND, at) for at in range(len(EVERY_KIND))]))
    write("plan_show/stdout", listing(EVERY_KIND))


if __name__ == "__main__":
    main()
