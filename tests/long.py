#!/usr/bin/env python3
"""Writes an archive of more than 65,536 bytes to a file and the lines of its measures to standard output. Plants are other Spitz,
measures negative and tolerated, so that by RULES.md the amounts up to a quarter add up to the whole Wh in a quarter of the sum of plan
minus measured power. Argument: the file."""
import struct
import sys

PLANTS, MEASURES, QUARTERS = 3, 9, 200


def record(kind, one, two, following, *fields):
    fields = list(fields) + [0] * (6 - len(fields))
    return struct.pack("<4B7i", kind, one, two, 0, following, *fields)


def measured(p, k, i):
    return 1000 * p + 100 * k + i


def planned(p, k, i):
    return measured(p, k, i) + (7919 * (p + 3 * k) + 104729 * i) % 100003


def main():
    records = []
    lines = []
    for p in range(1, PLANTS + 1):
        plant = 1 + len(records)
        size = 1 + MEASURES * (1 + QUARTERS)
        records.append(record(1, 3, 1, 0 if p == PLANTS else plant + size, 0, plant + 1, 1000000))
        for k in range(1, MEASURES + 1):
            measure = 1 + len(records)
            following = 0 if k == MEASURES else measure + 1 + QUARTERS
            records.append(record(3, 2, 2, following, 0, measure + 1))
            booked = []
            total = 0
            for i in range(1, QUARTERS + 1):
                quarter = 1 + len(records)
                following = 0 if i == QUARTERS else quarter + 1
                records.append(record(5, 1, 0, following, measured(p, k, i), 0, 0, planned(p, k, i)))
                total += planned(p, k, i) - measured(p, k, i)
                booked.append(total // 4 - sum(booked))
            lines.append(f"M {p} {k} {QUARTERS} {total // 4} {p + k + QUARTERS}")
            lines += [f"Q {i} {amount}" for i, amount in enumerate(booked, 1)]
    archive = struct.pack("<4s2i20x", b"AARB", 1 + len(records), 1) + b"".join(records)
    assert len(archive) > 65536
    with open(sys.argv[1], "wb") as file:
        file.write(archive)
    print("\n".join(lines))


main()
