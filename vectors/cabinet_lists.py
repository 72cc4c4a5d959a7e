#!/usr/bin/env python3
"""Lists of calls on a cabinet: each program must print what the model in Python says.

    cabinet_lists.py PROGRAM ..

Each program reads its standard input as the cabinet program does: calls up to the end of the input, on four free records and 32 red
outputs. A call is a kind byte and a record; of kind 0, placing, also the first output (1 byte) and the personality behind a two-byte
length; of kind 1, a step, eight bytes of inputs; kind 2 is taking out. A line is printed for each. The exit status is 0 only if all agree."""
import random
import subprocess
import sys

from cabinet import OUTPUTS, RECORDS, Cabinet
from model import junction, junction_two, largest, quick_ranges, random_site, turning_arrow
from retime import site_of

PLACE, STEP, TAKE_OUT = range(3)
WORDS, LETTERS = ("place", "step", "take"), "RYGFD"
CUT = "refused 16 0"


def little(value, size):
    return value.to_bytes(size, "little")


def place(record, personality, first):
    return bytes((PLACE, record, first)) + little(len(personality), 2) + personality


def step(record, inputs=0):
    return bytes((STEP, record)) + little(inputs, 8)


def take_out(record):
    return bytes((TAKE_OUT, record))


# ── What is printed, by the model ──

class Cut(Exception):
    """A call that is cut short, or of another kind."""


class Calls:
    """The calls of an input, taken one after the other."""

    def __init__(self, data):
        self.data, self.at = data, 0

    def take(self, size):
        part = self.data[self.at:self.at + size]
        if len(part) < size:
            raise Cut
        self.at += size
        return part

    def next(self):
        """Kind, record, and what else the cabinet is handed."""
        kind, record = self.take(2)
        if kind == PLACE:
            first, low, high = self.take(3)
            return kind, record, self.take(low + 256 * high), first
        if kind == STEP:
            return kind, record, int.from_bytes(self.take(8), "little")
        if kind == TAKE_OUT:
            return kind, record
        raise Cut


def lines(data):
    cabinet, calls = Cabinet(), Calls(data)
    while calls.at < len(data):
        try:
            kind, record, *more = calls.next()
        except Cut:
            yield CUT
            return
        found, rest = (cabinet.place, cabinet.step, cabinet.take_out)[kind](record, *more)
        said = f"refused {found} {rest}" if found else f"wait {rest}" if kind == STEP else "done"
        yield f"{WORDS[kind]} {record} {said} " + "".join(LETTERS[code] for code in cabinet.outputs)


# ── Inputs ──

def worked():
    """The worked list of calls, whose lines are known without the model."""
    site = junction()
    calls = [place(0, site, 0), place(1, site, 1), place(1, site, 2), step(1), step(0, 4), take_out(2), take_out(0), place(3, site, 30),
             place(2, site, 31), step(4)]
    said = ["place 0 done", "place 1 refused 25 0", "place 1 done", "step 1 wait 270", "step 0 refused 15 0", "take 2 refused 24 0",
            "take 0 done", "place 3 done", "place 2 refused 25 0", "step 4 refused 24 0"]
    outputs = ["R" * OUTPUTS] * 6 + ["DD" + "R" * 30] * 4
    assert list(lines(b"".join(calls))) == [f"{word} {shown}" for word, shown in zip(said, outputs)]
    return b"".join(calls)


def endings():
    """Inputs cut before each byte, and other kinds behind each call."""
    whole = place(2, junction(), 9) + step(2, 1) + take_out(2) + step(2)
    yield from (whole[:size] for size in range(len(whole) + 1))
    for kind in (3, 4, 16, 127, 128, 255):
        yield from (bytes((kind,)), bytes((kind,)) + whole, whole + bytes((kind,)), take_out(1) + bytes((kind, 0)) + whole)
    full = junction().ljust(65_535, b"\0")
    yield from (place(0, full, 0), place(0, full, 0) + step(0), place(0, full, 0)[:-1], place(0, b"", 0) + place(0, junction(), 0))


def edges():
    """Records and first outputs of every number, and each number of a refusal that a call can have here."""
    site = junction()
    yield b"".join(place(record, site, 0) + step(record) + take_out(record) for record in range(256))
    yield b"".join(place(0, site, first) + step(0) + take_out(0) for first in range(256))
    yield b"".join(place(0, personality, first) for personality in (site[:-1], junction_two(29), largest()) for first in (0, 1, 255))
    yield b"".join(step(0, 1 << bit) for bit in range(64))
    yield place(0, largest(), 0) + b"".join(step(0, 1 << bit) for bit in range(64)) + take_out(0)


def runs():
    """Sites that take turns, with buttons pressed and detectors occupied, some placed anew."""
    rng = random.Random(10)
    for turn in range(12):
        sites = [turning_arrow((5, 0)), junction_two(), *[random_site(rng, 8, quick_ranges(kind), kind) for kind in (1, 8, 1, 8)]][turn % 3:]
        firsts, first = [], 0
        for personality in sites[:RECORDS]:
            firsts.append(first)
            first += len(site_of(personality).groups)
        calls = [place(record, sites[record], firsts[record]) for record in range(RECORDS)]
        for _ in range(500):
            record, luck = rng.randrange(RECORDS), rng.random()
            wired = site_of(sites[record]).wired
            calls.append(step(record, wired & rng.getrandbits(64) & rng.getrandbits(64)))
            if luck < 0.02:
                calls += [take_out(record), place(record, sites[record], firsts[record])]
            elif luck < 0.06:
                calls.append(rng.choice((place(record, sites[record], 0), step(record, rng.getrandbits(64)), take_out(record), step(9))))
        yield b"".join(calls)


def main(programs):
    if not programs:
        print(__doc__)
        return 2
    count = wrong = 0
    for data in (worked(), *endings(), *edges(), *runs()):
        expected = "".join(line + "\n" for line in lines(data))
        for program in programs:
            done = subprocess.run([program], input=data, capture_output=True, check=False)
            count += 1
            if done.returncode or done.stderr or done.stdout.decode() != expected:
                wrong += 1
                print(f"{program}: expected\n{expected[-200:]}found\n{done.stdout.decode()[-200:]}for {data[:200].hex()}")
    print(f"{count} lists of calls, {wrong} wrong")
    return 1 if wrong else 0


if __name__ == "__main__":
    sys.exit(main(sys.argv[1:]))
