#!/usr/bin/env python3
"""Holds a program's calendar to Python's: every day from 2000 to 2100, delivery days from January 2000 to December 2099.

Arguments: the program (reference/src/bin/dates.rs has the lines), or --self-test, which feeds wrong lines.
"""
import calendar
import subprocess
import sys
from datetime import date, timedelta

DAY_ONE = date(2000, 1, 1)


def number(day):
    return (day - DAY_ONE).days + 1


def days_of(year, month):
    return [date(year, month, day) for day in range(1, calendar.monthrange(year, month)[1] + 1)]


def delivery(quarter, holidays):
    """The line for a quarter: its date by time passed, the fourth day that is left of the next month."""
    today = DAY_ONE + timedelta(minutes=15 * (quarter - 1)) // timedelta(days=1) * timedelta(days=1)
    following = days_of(today.year + today.month // 12, today.month % 12 + 1)
    left = [day for day in following if day.isoweekday() < 6 and day not in holidays]
    day = number(left[3]) if len(left) > 3 else 0
    return " ".join(map(str, ["D", quarter, day, *map(number, holidays)]))


def expected():
    day = DAY_ONE
    while day.year < 2101:
        yield f"{number(day)} {day.year} {day.month} {day.day} {day.isoweekday()}"
        day += timedelta(days=1)
    for year in range(2000, 2100):
        for month in range(1, 13):
            following = days_of(year + month // 12, month % 12 + 1)
            working = [day for day in following if day.isoweekday() < 6]
            first = 96 * (number(date(year, month, 1)) - 1) + 1
            last = 96 * (number(following[0]) - 1)
            yield delivery(first, [])
            yield delivery(last, [])
            yield delivery(first, following[:1])
            yield delivery(first, following[:10])
            yield delivery(first, [day for day in following if day not in working[-3:]])
            yield delivery(first, [day for day in following if day not in working[-4:]])


def difference(found, right):
    """What is wrong with the lines found, or None."""
    for at, (line, other) in enumerate(zip(found, right), 1):
        if line != other:
            return f"line {at}: found {line!r}, Python has {other!r}"
    if len(found) != len(right):
        return f"{len(found)} lines in place of {len(right)}"
    return None


def self_test(right):
    at = right.index("9922 2027 3 1 1")
    december = next(at for at, line in enumerate(right) if line.startswith("D 3506400 "))
    shifted = right[at].rsplit(" ", 1)[0] + " 2"
    wrong = {
        "a shifted weekday": right[:at] + [shifted] + right[at + 1:],
        "29 February 2027": right[:at] + ["9922 2027 2 29 1"] + right[at + 1:],
        "a missing day": right[:at] + right[at + 1:],
        "a missing last line": right[:-1],
        "a line too many": right + right[-1:],
        "no line": [],
        "another delivery day": right[:december] + ["D 3506400 36532"] + right[december + 1:],
        "a list left out": [line for line in right if not line.startswith("D") or len(line.split()) != 4],
    }
    assert right[december] == "D 3506400 36531"
    assert "D 937921 9806" in right
    assert difference(list(right), right) is None
    for name, lines in wrong.items():
        if difference(lines, right) is None:
            return f"accepted: {name}"
    print(f"{len(wrong)} wrong calendars refused")
    return None


def main():
    if len(sys.argv) != 2:
        sys.exit("usage: dates.py PROGRAM | --self-test")
    right = list(expected())
    if sys.argv[1] == "--self-test":
        fault = self_test(right)
    else:
        run = subprocess.run([sys.argv[1]], capture_output=True, text=True, check=True)
        fault = difference(run.stdout.splitlines(), right)
        if fault is None:
            days = sum(not line.startswith("D") for line in right)
            print(f"{days} days and {len(right) - days} delivery days as Python has them")
    if fault is not None:
        print(fault, file=sys.stderr)
        return 1
    return 0


if __name__ == "__main__":
    sys.exit(main())
