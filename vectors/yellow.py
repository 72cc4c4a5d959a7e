#!/usr/bin/env python3
"""Request nine's table of yellow times in exact fractions, written from the paper and independent of the proved code.

`yellow.py` prints it: a line for each speed, in which the grades rise. `yellow.py FILE ..` checks that each file, whatever its language,
holds the 1,491 numbers in a row with nothing but commas and white space between them."""
import re
import sys
from fractions import Fraction
from math import ceil

SPEEDS, GRADES = range(40, 111), range(-10, 11)


def entry(speed, grade):
    """Steps: a second to react, and the time to brake at 3 m/s² on the grade."""
    return max(30, 10 + ceil(Fraction(100_000 * speed, 36 * (6_000 + 196 * grade))))


def table():
    return [entry(speed, grade) for speed in SPEEDS for grade in GRADES]


def rows_of_numbers(text):
    return [[int(number) for number in re.split(r"[\s,]+", row)] for row in re.findall(r"\d+(?:[\s,]+\d+)*", text)]


def main():
    assert (entry(72, 0), entry(40, 10), entry(110, -10), len(table())) == (44, 30, 86, 1_491)
    if not sys.argv[1:]:
        for speed in SPEEDS:
            print(*(entry(speed, grade) for grade in GRADES))
    for name in sys.argv[1:]:
        with open(name, encoding="utf-8") as file:
            if table() not in rows_of_numbers(file.read()):
                sys.exit(f"{name}: not the table of yellow times")


main()
