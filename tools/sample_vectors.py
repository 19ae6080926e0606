#!/usr/bin/env python3
"""Makes crates/replay/data/cases, the sample that the program `replay` runs, from a folder of vectors.

    tools/sample_vectors.py VECTORS crates/replay/data/cases [all]

VECTORS has one text file for each call, 'rare.txt', 'p1.txt' (half of its plans have aggregates) and 'p2.txt' (partial sorting where 22 was, above all), two
lines for each case: 'CALL SETTINGS OUTLEN FILE [NODE]' and 'ANSWER', FILE in hex. An answer 22 is one of before document 02's P2 ('p2.txt' has none); since then the file comes
back, or 24 where it does not fit. Taken are, of each call's file, REFUSED evenly spaced refused cases and ACCEPTED evenly spaced accepted ones (CHECKED for the order
check); of 'rare.txt' RARE evenly spaced for each call; of 'p1.txt' for each call every refused case and ACCEPTED evenly spaced accepted ones that
have an aggregate; of 'p2.txt' REFUSED evenly spaced refused cases and ACCEPTED evenly spaced accepted ones; with 'all' every case of every file.
A case in the sample: a header of 20 bytes, then the file, then the file that the call is to write. The header: the call's place in CALLS; the answer's
number; the order check's answer, 255 for none; zero; then, two bytes each, little-endian, the lengths of the file, of the answer and of the lent output; the
three settings; three zeros; the node's number in four bytes.
"""
import sys

CALLS = ["ensure", "parallelize", "preserve", "push", "partial", "check"]
ACCEPTED = 40
CHECKED = 200
RARE = 40
REFUSED = 60
AGGREGATE = 15


def cases(path):
    lines = open(path).read().split("\n")
    for request, answer in zip(lines[0::2], lines[1::2]):
        words = request.split()
        call, settings, room = words[0], words[1], int(words[2])
        data = b"" if words[3] == "-" else bytes.fromhex(words[3])
        node = int(words[4]) if len(words) > 4 else 0
        said = answer.split()
        number = int(said[0])
        check = call == "check" and number == 0
        passes = int(said[1]) if check else 255
        wanted = bytes.fromhex(said[1]) if number == 0 and not check else b""
        if number == 22 and not path.endswith("p2.txt"):
            number, wanted = (0, data) if len(data) <= room else (24, b"")
        marks = bytes(3) if settings == "-" else bytes.fromhex(settings)
        yield call, number, passes, data, wanted, room, marks, node


def spaced(items, count):
    step = max(1, len(items) // count)
    return items[::step][:count]


def written(case):
    call, number, passes, data, wanted, room, marks, node = case
    lengths = b"".join(n.to_bytes(2, "little") for n in (len(data), len(wanted), room))
    return bytes([CALLS.index(call), number, passes, 0]) + lengths + marks + bytes(3) + node.to_bytes(4, "little") + data + wanted


def has_aggregate(case):
    blocks = [case[3][at : at + 512] for at in range(0, len(case[3]), 512)]
    return any(block[at] == AGGREGATE for block in blocks for at in range(8, 8 + 64 * block[4], 64))


def chosen(found, refused, accepted):
    return spaced([c for c in found if c[1] != 0], refused) + spaced([c for c in found if c[1] == 0], accepted)


def main(folder, out, whole):
    rare, aggregates, sorted_already = (list(cases(f"{folder}/{name}.txt")) for name in ("rare", "p1", "p2"))
    with open(out, "wb") as f:
        for call in CALLS:
            older = list(cases(f"{folder}/{call}.txt"))
            of_rare = [c for c in rare if c[0] == call]
            of_aggregates = [c for c in aggregates if c[0] == call]
            of_sorted = [c for c in sorted_already if c[0] == call]
            if not whole:
                older = chosen(older, REFUSED, CHECKED if call == "check" else ACCEPTED)
                of_rare = spaced(of_rare, RARE)
                of_aggregates = chosen([c for c in of_aggregates if c[1] != 0 or has_aggregate(c)], len(of_aggregates), ACCEPTED)
                of_sorted = chosen(of_sorted, REFUSED, ACCEPTED)
            for case in older + of_rare + of_aggregates + of_sorted:
                if len(case[3]) <= 10240 and case[5] <= 10240:
                    f.write(written(case))


if __name__ == "__main__":
    main(sys.argv[1], sys.argv[2], len(sys.argv) > 3)
