#!/usr/bin/env python3
"""Figures a to k of document 01 out of the running program: archives written by the record layout, results as the paper has them."""
import struct
import subprocess
import sys

OTHER, SOLAR, WIND = 3, 2, 1
SPITZ, PAUSCHAL = 1, 2
POSITIVE, NEGATIVE = 1, 2
REQUESTED, TOLERATED = 1, 2


def record(kind, one, two, following, *fields):
    fields = list(fields) + [0] * (6 - len(fields))
    return struct.pack("<4B7i", kind, one, two, 0, following, *fields)


def chain(kind, first, rows):
    """Records of one chain, numbered on from `first`: rows of (byte 1, byte 2, fields)."""
    last = first + len(rows) - 1
    return [record(kind, one, two, 0 if n == last else n + 1, *fields) for n, (one, two, fields) in enumerate(rows, first)]


def archive(technology, variant, pn, direction, execution, quarters, befores=(), points=()):
    first_measure = 2 + len(points)
    first_before = first_measure + 1
    first_quarter = first_before + len(befores)
    records = [record(1, technology, variant, 0, 2 if points else 0, first_measure, pn)]
    records += chain(2, 2, [(0, 0, p) for p in points])
    records += [record(3, direction, execution, 0, first_before if befores else 0, first_quarter)]
    records += chain(4, first_before, [(1, 0, (m, 0, w)) for m, w in befores])
    records += chain(5, first_quarter, quarters)
    return struct.pack("<4s2i20x", b"AARB", 1 + len(records), 1) + b"".join(records)


def pauschal(reference, measured, pn=2000000):
    return archive(OTHER, PAUSCHAL, pn, NEGATIVE, TOLERATED, [(7, 40, (m,)) for m in measured], [(reference, 0)])


def wind(before, measured, speed, points=((0, 0), (200, 2000000)), pn=2000000):
    return archive(WIND, SPITZ, pn, NEGATIVE, TOLERATED, [(7, 40, (m, 0, speed)) for m in measured], before, points)


def factor(month, quarters):
    return archive(SOLAR, PAUSCHAL, 1000000, NEGATIVE, TOLERATED, [(month, q, ()) for q in quarters])


def planned(direction, measured, limit, plan):
    return archive(OTHER, SPITZ, 1000000, direction, REQUESTED, [(1, 0, (measured, limit, 0, plan))])


FIGURES = [
    ("a", pauschal(800000, (500001, 500001, 500002), 1000000), [74999, 75000, 75000]),
    ("b", wind([(900000, 100)] * 4, [350000], 150), [250000]),
    ("c", wind([(1200000, 100)] * 4, [0], 200), [500000]),
    # d: L is 600,000, so of a plan of 1,000,000 a quarter of 400,000 is lost
    ("d", planned(NEGATIVE, 400000, 600000, 1000000), [100000]),
    ("e", planned(POSITIVE, 700000, 600000, 500000), [-25000]),
    ("g", archive(SOLAR, SPITZ, 2000000, NEGATIVE, TOLERATED, [(7, 40, (80000, 0, 800))], [(300000, 500)] * 3), [100000]),
    ("h", factor(7, (35, 36)), [61400, 154725]),
    ("i", factor(11, (66, 67)), [69900, 0]),
    ("k", pauschal(100000, (-20000,)), [30000]),
]


def curve_at(speed):
    """f: A equals B, so T is the curve's power; with -400,000 measured the amount is 100,000 more than a quarter of it."""
    before = [(100001, 40)] * 4
    quarter = [(7, 40, (-400000, 0, speed))] * 4
    return archive(WIND, SPITZ, 1000000, NEGATIVE, TOLERATED, quarter, before, ((30, 0), (40, 100001)))


def output(program, data):
    return subprocess.run([program], input=data, stdout=subprocess.PIPE, check=True).stdout.decode().splitlines()


def amounts(lines):
    return [int(line.split()[2]) for line in lines if line.startswith("Q")]


def main(program):
    for letter, data, expected in FIGURES:
        lines = output(program, data)
        assert amounts(lines) == expected, (letter, lines)
        assert lines[0].split()[:5] == ["M", "1", "1", str(len(expected)), str(sum(expected))], (letter, lines)
    for speed, power in ((35, 50000), (40, 100001), (29, 0), (41, 0)):
        lines = output(program, curve_at(speed))
        assert sum(amounts(lines)) == power + 400000, ("f", speed, lines)
    for power, settles in ((200000, True), (199999, False)):
        lines = output(program, wind([(900000, 100)] * 3 + [(power, 100)], [0], 100))
        assert lines[0].startswith("M 1 1 1 ") if settles else lines == ["E 1 1 11"], ("j", power, lines)
    print("figures a to k: as document 01 has them")


main(sys.argv[1])
