#!/usr/bin/env python3
"""Writes the example archives: python3 examples/make.py DIR

docs/FORMAT.md describes the bytes. An archive is filed here as the calls fresh and append do it: each record goes behind the
last one, and the last link of its chain is set to its number.
"""
import pathlib
import struct
import sys

# Kinds of records (byte 0).
PLANT, POINT, MEASURE, BEFORE, QUARTER = 1, 2, 3, 4, 5
# Plant: technology (byte 1), variant (byte 2).
WIND, SOLAR, OTHER = 1, 2, 3
SPITZ, PAUSCHAL = 1, 2
# Measure: direction (byte 1), execution (byte 2).
POSITIVE, NEGATIVE = 1, 2
REQUESTED, TOLERATED, FIXED = 1, 2, 3
# Before-quarter: mark (byte 1).
RESTRICTED, FREE = 0, 1

NEXT = 4  # the link to the next record of a chain
# Where the owner's link to the first record of a kind stands.
FIRST = {PLANT: 8, POINT: 8, MEASURE: 12, BEFORE: 8, QUARTER: 12}


# Quarter: no reading (bytes 24-27 and 28-31).
NONE = 2_147_483_647


def record(kind, byte1=0, byte2=0, at8=0, at12=0, at16=0, at20=0, at24=0, at28=0):
    """32 bytes: kind, two bytes, a free byte, the next link (0), six signed numbers."""
    return struct.pack("<4B7i", kind, byte1, byte2, 0, 0, at8, at12, at16, at20, at24, at28)


class Archive:
    def __init__(self):
        self.bytes = bytearray(struct.pack("<4sII20x", b"AARB", 1, 0))

    def link(self, number, at):
        return struct.unpack_from("<I", self.bytes, 32 * number + at)[0]

    def set_link(self, number, at, to):
        struct.pack_into("<I", self.bytes, 32 * number + at, to)

    def append(self, owner, new):
        """Files a record at the end of its owner's chain and gives its number."""
        holder, at = owner, FIRST[new[0]]
        while self.link(holder, at) != 0:
            holder, at = self.link(holder, at), NEXT
        number = len(self.bytes) // 32
        self.bytes += new
        self.set_link(holder, at, number)
        self.set_link(0, 4, number + 1)  # U
        return number

    def plant(self, technology, variant, nominal):
        return self.append(0, record(PLANT, technology, variant, at16=nominal))

    def point(self, plant, speed, power):
        return self.append(plant, record(POINT, at8=speed, at12=power))

    def measure(self, plant, direction, execution, first=0):
        """first: the number of its first quarter, unsigned; 0 for no date."""
        number = self.append(plant, record(MEASURE, direction, execution))
        struct.pack_into("<I", self.bytes, 32 * number + 16, first)
        return number

    def before(self, measure, mark, measured, weather=0):
        return self.append(measure, record(BEFORE, mark, 0, at8=measured, at16=weather))

    def quarter(self, measure, month, of_day, measured, limit=0, weather=0, planned=0, nonavailability=0, adjustment=0):
        """The last two are read from October 2026 on, in wind and other Pauschal; 0 is a power there, NONE no reading."""
        return self.append(measure, record(QUARTER, month, of_day, measured, limit, weather, planned, nonavailability, adjustment))


def wind():
    """A 3 MW turbine, Spitz; in March, 12:00 to 13:00, requested to feed in at most 900 kW."""
    a = Archive()
    plant = a.plant(WIND, SPITZ, 3_000_000)
    curve = [(30, 0), (50, 210_000), (70, 700_000), (90, 1_500_000), (113, 2_520_000), (130, 3_000_000), (250, 3_000_000)]
    for speed, power in curve:
        a.point(plant, speed, power)
    measure = a.measure(plant, NEGATIVE, REQUESTED)
    for mark, measured, speed in [  # the latest first
        (FREE, 1_760_000, 93),
        (RESTRICTED, 900_000, 95),  # not marked: left out
        (FREE, 1_850_000, 97),
        (FREE, 299_999, 54),  # below 10 % of 3 MW: left out
        (FREE, 1_500_000, 90),
        (FREE, 1_620_000, 92),
        (FREE, 1_640_000, 91),  # a fifth: not used
    ]:
        a.before(measure, mark, measured, speed)
    for of_day, measured, speed in [(48, 905_299, 96), (49, 884_100, 101), (50, 899_950, 137), (51, 731_000, 67)]:
        a.quarter(measure, 3, of_day, measured, limit=900_000, weather=speed)
    return a.bytes


def solar():
    """A 750 kW plant, Spitz, tolerated; a 500 kW plant, Pauschal, one measure in July and one in November."""
    a = Archive()
    spitz = a.plant(SOLAR, SPITZ, 750_000)
    measure = a.measure(spitz, NEGATIVE, TOLERATED)
    befores = [(FREE, 401_200, 655), (FREE, 432_700, 702), (RESTRICTED, 150_000, 713), (FREE, 12_300, 21)]
    for mark, measured, irradiance in befores:
        a.before(measure, mark, measured, irradiance)
    for of_day, measured, irradiance in [(46, 225_100, 690), (47, 224_800, 733), (48, 225_400, 310)]:
        a.quarter(measure, 6, of_day, measured, weather=irradiance)
    pauschal = a.plant(SOLAR, PAUSCHAL, 500_000)
    july = a.measure(pauschal, NEGATIVE, TOLERATED)
    for of_day, measured in [(35, 60_001), (36, 60_002)]:
        a.quarter(july, 7, of_day, measured)
    november = a.measure(pauschal, NEGATIVE, REQUESTED)
    for of_day, measured in [(66, 20_000), (67, -1_500)]:
        a.quarter(november, 11, of_day, measured, limit=0)
    return a.bytes


def other():
    """A 1.2 MW biogas plant, Spitz, requested; an 800 kW hydro plant, Pauschal, both sides fixed."""
    a = Archive()
    biogas = a.plant(OTHER, SPITZ, 1_200_000)
    measure = a.measure(biogas, NEGATIVE, REQUESTED)
    for of_day, measured, planned in [(72, 600_150, 1_150_000), (73, 598_700, 1_150_001), (74, 602_000, 0)]:
        a.quarter(measure, 1, of_day, measured, limit=600_000, planned=planned)
    hydro = a.plant(OTHER, PAUSCHAL, 800_000)
    fixed = a.measure(hydro, NEGATIVE, FIXED)
    for mark, measured in [(RESTRICTED, 512_000), (FREE, 640_003), (FREE, 655_000)]:
        a.before(fixed, mark, measured)
    for of_day, measured in [(10, 400_000), (11, 399_998)]:
        a.quarter(fixed, 1, of_day, measured, limit=400_000)
    return a.bytes


def positive():
    """A 1.5 MW gas engine, Spitz, requested to feed in at least 900 kW; another, Pauschal, tolerated."""
    a = Archive()
    planned = a.plant(OTHER, SPITZ, 1_500_000)
    measure = a.measure(planned, POSITIVE, REQUESTED)
    for of_day, measured, plan in [(32, 880_000, 500_001), (33, 921_500, 500_001), (34, 910_000, 950_000)]:
        a.quarter(measure, 2, of_day, measured, limit=900_000, planned=plan)
    last = a.plant(OTHER, PAUSCHAL, 1_500_000)
    tolerated = a.measure(last, POSITIVE, TOLERATED)
    a.before(tolerated, FREE, 300_000)
    for of_day, measured in [(32, 700_003), (33, 700_002), (34, 700_003)]:
        a.quarter(tolerated, 2, of_day, measured)
    return a.bytes


def refused():
    """A 1 MW solar plant, Pauschal, with five measures; only the third is settled."""
    a = Archive()
    plant = a.plant(SOLAR, PAUSCHAL, 1_000_000)
    a.measure(plant, NEGATIVE, TOLERATED)  # no quarter
    thirteen = a.measure(plant, NEGATIVE, TOLERATED)
    a.quarter(thirteen, 13, 36, 0)  # month 13
    good = a.measure(plant, NEGATIVE, TOLERATED)
    a.quarter(good, 7, 36, 0)
    broken = a.measure(plant, NEGATIVE, TOLERATED)
    quarter = a.quarter(broken, 7, 36, 0)
    unreached = a.measure(plant, NEGATIVE, TOLERATED)
    a.quarter(unreached, 7, 37, 0)
    a.set_link(quarter, NEXT, quarter)  # a link that isn't above its holder
    a.set_link(plant, 8, 0xFFFFFFFF)  # no link that a solar plant needs
    return a.bytes


def a():
    """Case a of document 01: another plant, Pauschal, negative, tolerated."""
    a = Archive()
    measure = a.measure(a.plant(OTHER, PAUSCHAL, 1_000_000), NEGATIVE, TOLERATED)
    a.before(measure, FREE, 800_000)
    for measured in (500_001, 500_001, 500_002):
        a.quarter(measure, 7, 40, measured)
    return a.bytes


def b():
    """Figure b: wind, Spitz; a curve of two points, four before-quarters."""
    a = Archive()
    plant = a.plant(WIND, SPITZ, 2_000_000)
    a.point(plant, 0, 0)
    a.point(plant, 200, 2_000_000)
    measure = a.measure(plant, NEGATIVE, TOLERATED)
    for _ in range(4):
        a.before(measure, FREE, 900_000, 100)
    a.quarter(measure, 7, 40, 350_000, weather=150)
    return a.bytes


def d():
    """Figure d with a plan of 1 MW: another plant, Spitz, requested."""
    a = Archive()
    measure = a.measure(a.plant(OTHER, SPITZ, 1_000_000), NEGATIVE, REQUESTED)
    a.quarter(measure, 7, 40, 400_000, limit=600_000, planned=1_000_000)
    return a.bytes


def f():
    """Figure f: wind, Spitz; A is four times B, so that the amounts are the curve's powers at speeds 35, 40, 29 and 41."""
    a = Archive()
    plant = a.plant(WIND, SPITZ, 1_000_000)
    a.point(plant, 30, 0)
    a.point(plant, 40, 100_001)
    measure = a.measure(plant, NEGATIVE, TOLERATED)
    for _ in range(4):
        a.before(measure, FREE, 400_004, 40)
    for of_day, speed in [(40, 35), (41, 40), (42, 29), (43, 41)]:
        a.quarter(measure, 7, of_day, 0, weather=speed)
    return a.bytes


def g():
    """Figure g: solar, Spitz; three before-quarters."""
    a = Archive()
    measure = a.measure(a.plant(SOLAR, SPITZ, 1_000_000), NEGATIVE, TOLERATED)
    for _ in range(3):
        a.before(measure, FREE, 300_000, 500)
    a.quarter(measure, 7, 40, 80_000, weather=800)
    return a.bytes


def h():
    """Figure h: solar, Pauschal; the quarters before and after 9:00 in July."""
    a = Archive()
    measure = a.measure(a.plant(SOLAR, PAUSCHAL, 1_000_000), NEGATIVE, TOLERATED)
    a.quarter(measure, 7, 35, 0)
    a.quarter(measure, 7, 36, 0)
    return a.bytes


def k():
    """Figure k: wind, Pauschal; less than 10 % of Pn before the measure, consumption during it."""
    a = Archive()
    measure = a.measure(a.plant(WIND, PAUSCHAL, 2_000_000), NEGATIVE, TOLERATED)
    a.before(measure, FREE, 100_000)
    a.quarter(measure, 7, 40, -20_000)
    return a.bytes


def pauschal():
    """Pauschal in each technology, sums that do not come out even; a second measure of the third plant."""
    a = Archive()
    wind = a.measure(a.plant(WIND, PAUSCHAL, 2_000_000), NEGATIVE, REQUESTED)
    for mark, measured in [(RESTRICTED, 900_000), (FREE, 1_234_567), (FREE, 5)]:
        a.before(wind, mark, measured)
    for of_day, measured, limit in [(0, 400_001, 400_000), (1, 399_998, 400_000), (2, 400_003, 399_000)]:
        a.quarter(wind, 9, of_day, measured, limit)
    solar = a.measure(a.plant(SOLAR, PAUSCHAL, 123_457), NEGATIVE, FIXED)
    for of_day, measured in [(35, 1), (36, 20_003), (59, 20_000), (60, -3)]:
        a.quarter(solar, 6, of_day, measured, limit=50_000)
    other = a.plant(OTHER, PAUSCHAL, 500_000)
    raised = a.measure(other, POSITIVE, FIXED)
    a.before(raised, FREE, 100_003)
    for of_day, measured in [(80, 200_000), (81, 200_001), (82, 99_000), (83, 200_002)]:
        a.quarter(raised, 12, of_day, measured, limit=150_000)
    lowered = a.measure(other, NEGATIVE, REQUESTED)
    a.before(lowered, FREE, -50_001)
    for of_day, measured, limit in [(90, -200_000, -180_003), (91, -190_000, -180_004)]:
        a.quarter(lowered, 12, of_day, measured, limit)
    return a.bytes


def factors():
    """A 1 MW solar plant, Pauschal: both sides of every edge of the factor table, then quarter 36 of every month."""
    a = Archive()
    plant = a.plant(SOLAR, PAUSCHAL, 1_000_000)
    measure = a.measure(plant, NEGATIVE, TOLERATED)
    for month, edges in [(3, (24, 36, 60, 76)), (11, (36, 40, 56, 67))]:
        for edge in edges:
            a.quarter(measure, month, edge - 1, 0)
            a.quarter(measure, month, edge, 0)
    measure = a.measure(plant, NEGATIVE, TOLERATED)
    for month in range(1, 13):
        a.quarter(measure, month, 36, 0)
    return a.bytes


def dated():
    """An 800 kW solar plant, Pauschal, with dated measures and one without a date; another plant, Spitz, with two dated ones."""
    a = Archive()
    solar = a.plant(SOLAR, PAUSCHAL, 800_000)
    autumn = a.measure(solar, NEGATIVE, TOLERATED, 940_876)  # 31 October 2026, 18:45, to 1 November, 9:15
    a.quarter(autumn, 13, 255, 12_345)
    for _ in range(56):
        a.quarter(autumn, 7, 40, 0)
    a.quarter(autumn, 13, 255, 54_321)
    for first, quarters in [
        (946_752, [(0, 0, -300), (0, 0, -301), (0, 0, -300)]),  # 31 December 2026, 23:45
        (987_481, [(3, 24, 0)]),  # 29 February 2028, 6:00
        (987_577, [(2, 24, 0)]),  # 1 March 2028, 6:00
        (3_506_400, [(13, 255, -1_000)]),  # the calendar's last quarter
        (3_506_400, [(13, 255, 0), (13, 255, 0)]),  # and one past it
        (2_147_483_648, [(7, 36, 0)]),
        (4_294_967_295, [(7, 36, 0), (7, 36, 0)]),
        (0, [(7, 36, 0)]),  # no date
    ]:
        measure = a.measure(solar, NEGATIVE, TOLERATED, first)
        for month, of_day, measured in quarters:
            a.quarter(measure, month, of_day, measured)
    other = a.plant(OTHER, SPITZ, 1_000_000)
    for first in (937_921, 3_506_401):  # 1 October 2026, 0:00; past the calendar
        measure = a.measure(other, NEGATIVE, REQUESTED, first)
        a.quarter(measure, 13, 255, 400_000, limit=600_000, planned=1_000_000)
    return a.bytes


def october():
    """A 2 MW wind plant and a 1 MW plant, other, both Pauschal, with measures on both sides of 1 October 2026, 0:00."""
    a = Archive()

    def measure(plant, direction, execution, first, reference, quarters, limit=0):
        number = a.measure(plant, direction, execution, first)
        a.before(number, FREE, reference)
        for measured, nonavailability, adjustment in quarters:
            a.quarter(number, 0, 0, measured, limit, nonavailability=nonavailability, adjustment=adjustment)

    wind = a.plant(WIND, PAUSCHAL, 2_000_000)
    # the last quarter of September and the first of October: judged by the 2020 text, whatever bytes 24-31 hold
    measure(wind, NEGATIVE, TOLERATED, 937_920, 1_200_003, [(400_000, 900_000, 800_000), (400_001, 1_000_000_001, -1)])
    measure(wind, NEGATIVE, REQUESTED, 937_921, 1_200_003, [
        (400_000, NONE, NONE),
        (400_001, 900_002, NONE),
        (399_000, NONE, 800_001),
        (400_002, 700_001, 800_001),
        (400_003, 900_002, 600_000),
        (400_000, 1_300_000, 1_000_000_000),
        (400_000, 0, NONE),
    ], limit=400_000)
    # P0 above Pn, and a bound above Pn; a plant that takes power, and a bound below 0
    measure(wind, NEGATIVE, TOLERATED, 937_921, 2_500_000, [(300_001, 2_400_000, NONE), (-500_002, NONE, -100_001)])
    measure(wind, NEGATIVE, TOLERATED, 937_921, 1_200_003, [(400_000, NONE, 1_000_000_001)])
    other = a.plant(OTHER, PAUSCHAL, 1_000_000)
    measure(other, NEGATIVE, TOLERATED, 937_919, 800_000, [(500_001, 0, 0), (500_001, 0, 0), (500_002, 0, 0)])
    measure(other, NEGATIVE, TOLERATED, 937_921, 800_000, [(500_001, 0, 0), (500_001, 600_000, 0), (500_002, NONE, 1_000_000_001)])
    measure(other, POSITIVE, REQUESTED, 937_920, 500_000, [(760_000, 650_001, NONE)], limit=700_000)
    measure(other, POSITIVE, REQUESTED, 937_921, 500_000, [
        (760_000, NONE, NONE),
        (760_000, 650_001, 600_000),
        (690_001, 750_000, 1_000_000_001),
        (760_000, 400_000, NONE),
    ], limit=700_000)
    measure(other, POSITIVE, FIXED, 1_000_000, 500_000, [(760_000, 650_001, NONE)], limit=600_000)
    for nonavailability in (1_000_000_001, NONE):  # past the calendar
        measure(other, NEGATIVE, TOLERATED, 3_506_401, 800_000, [(500_000, nonavailability, 0)])
    measure(other, NEGATIVE, TOLERATED, 0, 800_000, [(500_000, 600_000, 600_000)])  # no date
    return a.bytes


def plants():
    """Seven plants: refusals that the program passes over, a plant without measures, a kind that ends it."""
    a = Archive()
    curve = a.plant(WIND, SPITZ, 2_000_000)
    a.point(curve, 30, 0)
    a.point(curve, 30, 5)
    a.measure(curve, NEGATIVE, TOLERATED)
    a.measure(curve, POSITIVE, TOLERATED)
    a.plant(OTHER, PAUSCHAL, 1_000_000)  # no measure
    wind = a.plant(WIND, SPITZ, 1_000_009)
    for speed, power in [(30, 100_001), (40, 0), (50, 900_000), (53, 1_000_000)]:
        a.point(wind, speed, power)
    few = a.measure(wind, NEGATIVE, TOLERATED)
    for measured in (400_000, 100_000, 100_001, 500_000):  # the second is below 10 %
        a.before(few, FREE, measured, 50)
    calm = a.measure(wind, NEGATIVE, TOLERATED)
    for speed in (40, 29, 40, 54):
        a.before(calm, FREE, 400_000, speed)
    a.quarter(calm, 0, 0, 0, weather=53)
    five = a.measure(wind, NEGATIVE, FIXED)
    for mark, measured, speed in [
        (FREE, 700_003, 51),
        (FREE, 99_999, 1_001),  # below 10 %: its speed is not read
        (RESTRICTED, 800_000, 52),
        (FREE, 650_001, 52),
        (FREE, 100_001, 35),  # usable: 1,000,010 is not below 1,000,009
        (FREE, 720_000, 53),
        (FREE, 710_000, 51),  # a fifth
    ]:
        a.before(five, mark, measured, speed)
    for measured, speed in [(200_001, 47), (-100_000, 54), (200_003, 30), (200_002, 52), (0, 35), (150_000, 53)]:
        a.quarter(five, 0, 0, measured, limit=900_000, weather=speed)
    unknown = a.plant(4, PAUSCHAL, 1_000_000)
    a.measure(unknown, NEGATIVE, TOLERATED)
    a.measure(unknown, NEGATIVE, TOLERATED)
    solar = a.plant(SOLAR, SPITZ, 100_000)
    dark = a.measure(solar, NEGATIVE, TOLERATED)
    a.before(dark, FREE, 0, 0)
    a.before(dark, RESTRICTED, 50_000, 600)
    a.quarter(dark, 0, 0, 0)
    a.measure(solar, POSITIVE, TOLERATED)
    bright = a.measure(solar, NEGATIVE, REQUESTED)
    for mark, measured, irradiance in [(FREE, 30_001, 301), (FREE, 9_999, 0), (RESTRICTED, 5, 5), (FREE, -7, 11), (FREE, 40_000, 395)]:
        a.before(bright, mark, measured, irradiance)
    for measured, irradiance in [(20_000, 402), (20_004, 2_000), (15_000, 0), (0, 333)]:
        a.quarter(bright, 0, 0, measured, limit=19_000, weather=irradiance)
    engine = a.plant(OTHER, SPITZ, 1_000_000)
    raised = a.measure(engine, POSITIVE, REQUESTED)
    for measured, limit, planned in [(600_001, 600_000, 300_003), (600_000, 600_003, 300_001), (-5, 600_000, -1_000_000_000), (7, 8, 9)]:
        a.quarter(raised, 0, 0, measured, limit, planned=planned)
    wrong = a.measure(engine, NEGATIVE, TOLERATED)
    first = a.quarter(wrong, 0, 0, 0)
    a.measure(engine, NEGATIVE, TOLERATED)
    last = a.measure(a.plant(OTHER, SPITZ, 1_000_000), NEGATIVE, TOLERATED)
    a.quarter(last, 0, 0, 0, planned=4)
    a.set_link(first, NEXT, last)  # a quarter that leads to a measure
    return a.bytes


def day():
    """A solar plant, Spitz, with 97 before-quarters, one more than a day has."""
    a = Archive()
    measure = a.measure(a.plant(SOLAR, SPITZ, 1_000_000), NEGATIVE, TOLERATED)
    for n in range(97):
        a.before(measure, FREE, 1_000 * n + n * n, 5 * n)
    a.quarter(measure, 6, 48, 0, weather=701)
    return a.bytes


def month():
    """Another plant, Spitz, with 2,977 quarters, one more than a month of 31 days has."""
    a = bytearray(struct.pack("<4sII20x", b"AARB", 2980, 1))
    a += struct.pack("<4B5i8x", PLANT, OTHER, SPITZ, 0, 0, 0, 2, 1_000_000, 0)
    a += struct.pack("<4B5i8x", MEASURE, NEGATIVE, TOLERATED, 0, 0, 0, 3, 0, 0)
    for n in range(3, 2980):
        a += struct.pack("<4B5i8x", QUARTER, 0, 0, 0, (n + 1) % 2980, 1_000, 0, 0, 3_000)
    return a


def shared():
    """Another plant, Spitz, with 46 measures that share 46 quarters: more lines than an archive of the program has records."""
    a = Archive()
    plant = a.plant(OTHER, SPITZ, 1_000_000)
    measures = [a.measure(plant, NEGATIVE, TOLERATED) for _ in range(46)]
    quarters = [a.quarter(measures[0], 0, 0, n, planned=3 * n) for n in range(46)]
    for measure in measures:
        a.set_link(measure, FIRST[QUARTER], quarters[0])
    return a.bytes


def main():
    directory = pathlib.Path(sys.argv[1])
    directory.mkdir(parents=True, exist_ok=True)
    for make in (a, b, d, f, g, h, k, refused, wind, solar, other, positive, pauschal, plants, factors, dated, october, day, month, shared):
        (directory / (make.__name__ + ".archive")).write_bytes(make())


main()
