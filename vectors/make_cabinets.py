#!/usr/bin/env python3
"""Writes the vectors of the cabinet. Of each: the number of records that are handed over (2 bytes) and the row, which is their bytes; the
outputs behind a two-byte length; the number of calls (2 bytes); the calls, one after the other on the same row and outputs.

A call is its kind (1 byte: 0 place, 1 step, 2 take out, 3 retime) and the record (8 bytes); of a placing also the first output (8) and the
personality behind a two-byte length, of a step the inputs (8), of a retiming the new personality behind a two-byte length. Then come the
number (1) and the place or wait (4), and, if the call is accepted, the row and the outputs after it. A retiming is the call of a site
alone, on the personality and the state in the record.

Usage: make_cabinets.py OUT. The same file comes out at every run."""
import random
import sys
from collections import Counter

from cabinet import DARK, OUTPUTS, RECORD_BYTES, RECORDS, ROOM, ROW_BYTES, Cabinet
from draws import damaged, put, random_data, second
from model import build, junction, junction_two, largest, quick_ranges, random_site, three_phases, turning_arrow
from retime import FLAG, RULING, STATE_BYTES, fresh, site_of, times_of, verdict_of

PLACE, STEP, TAKE_OUT, RETIME = range(4)
FAR = (4, 5, 255, 256, 1 << 32, (1 << 64) - 1)


def little(value, size):
    return value.to_bytes(size, "little")


def behind_length(data):
    return little(len(data), 2) + data


class Vector:
    """A cabinet, and the calls made on it."""
    seen = Counter()

    def __init__(self, row=bytes(ROW_BYTES), outputs=bytes(OUTPUTS)):
        self.cabinet, self.start = Cabinet(row, outputs), little(len(row) // RECORD_BYTES, 2) + row + behind_length(outputs)
        self.calls = []

    def call(self, kind, record, *more):
        """Makes a call: a placing with personality and first output, a step with inputs, a retiming with the new personality."""
        made = (self.cabinet.place, self.cabinet.step, self.cabinet.take_out, self.cabinet.retime)[kind]
        before = self.cabinet.row
        found, rest = made(record, *more)
        handed = bytes((kind,)) + little(record, 8)
        if kind == PLACE:
            handed += little(more[1], 8) + behind_length(more[0])
        if kind == STEP:
            handed += little(more[0], 8)
        if kind == RETIME:
            handed += behind_length(more[0])
        self.watch(kind, record, found, before)
        after = self.cabinet.row + self.cabinet.outputs if found == 0 else b""
        self.calls.append(handed + bytes((found,)) + little(rest, 4) + after)
        return found, rest

    def watch(self, kind, record, found, before):
        """Counts what a call shows."""
        self.seen[("place", "step", "take out", "retime")[kind], found] += 1
        if kind == STEP and not found:
            at = record * RECORD_BYTES + 4 + ROOM
            held, state = self.cabinet.records()[record], before[at:at + STATE_BYTES]
            self.seen["step by other times than its own"] += state[RULING:FLAG] != times_of(held.personality)
            self.seen["change of times"] += state[FLAG] and not held.state[FLAG]

    def data(self):
        return self.start + little(len(self.calls), 2) + b"".join(self.calls)


def fresh_state(personality):
    return fresh(personality, bytes(STATE_BYTES))[2]


def record_of(personality, first=0, held=1, length=None, state=None):
    """The bytes of a record. By default it is as a placing leaves it; if the personality is refused, with the state of the junction."""
    length = len(personality) if length is None else length
    state = fresh_state(junction() if verdict_of(personality)[0] else personality) if state is None else state
    return bytes((held, first)) + little(length, 2) + personality[:ROOM].ljust(ROOM, b"\0") + state


FREE = bytes(RECORD_BYTES)


# ── Cases known without this model ──

def worked():
    """The worked list of calls of the junction."""
    vector, site = Vector(), junction()
    for call, answer in (((PLACE, 0, site, 0), (0, 0)), ((PLACE, 1, site, 1), (25, 0)), ((PLACE, 1, site, 2), (0, 0)),
                         ((STEP, 1, 0), (0, 270)), ((STEP, 0, 4), (15, 0)), ((TAKE_OUT, 2), (24, 0)), ((TAKE_OUT, 0), (0, 0)),
                         ((PLACE, 3, site, 30), (0, 0)), ((PLACE, 2, site, 31), (25, 0)), ((STEP, 4, 0), (24, 0))):
        assert vector.call(*call) == answer, call
    assert vector.cabinet.outputs == bytes([DARK] * 2 + [0] * 30)
    yield vector


def longer():
    """The junction with longer times, and a wait of 460."""
    return build(20, [(0, 40, 60, 10, 40, 20)] * 2, [(1, 0), (2, 0)], {(0, 1)}, [(0, 6), (1, 6)], [])


def worked_retimings():
    """The junction twice, one of them with new times from the start of B on, in step 71."""
    vector = Vector()
    for record, first in ((0, 0), (3, 30)):
        vector.call(PLACE, record, junction(), first)
    for now in range(1, 113):
        if now == 20:
            assert vector.call(RETIME, 3, longer()) == (0, 0)
        for record in (0, 3):
            wait = 460 if record == 3 and now > 70 else 270
            assert vector.call(STEP, record, 2 if now == 12 else 0) == (0, wait), (record, now)
    one, other = (vector.cabinet.records()[record].state[:3] for record in (0, 3))
    assert (one, other) == (bytes((1, 3, 22)), bytes((1, 3, 2)))
    yield vector


def refused_retimings():
    """Retimings of a site, of a record whose personality is refused, of one whose state is not valid, of a free one, and of a site of edition
    two. The last of each vector is accepted."""
    wrong, site, two = put(junction(), 20, 29), junction(), junction_two()
    other = longer()[:61] + b"\2" + longer()[62:]
    bad_state = record_of(site, 4, state=b"\xff" * STATE_BYTES)
    row = record_of(site) + record_of(wrong, 2) + bad_state + FREE
    calls = ((0, other, (26, 0)), (0, wrong, (5, 20)), (0, b"", (1, 0)), (1, longer(), (5, 20)), (2, wrong, (13, 0)), (3, longer(), (1, 0)),
             (0, two, (26, 0)), (0, longer(), (0, 0)))
    of_two = ((0, junction_two(kind=1), (26, 0)), (0, junction_two(29), (5, 6)), (0, junction_two(reds=(15, 14)), (5, 34)),
              (0, junction_two(29, kind=1), (26, 0)), (0, junction_two(40), (0, 0)))
    for vector, made in ((Vector(row), calls), (Vector(record_of(two, 7) + FREE * 3), of_two)):
        for record, new, answer in made:
            assert vector.call(RETIME, record, new) == answer, (record, answer)
        yield vector


def editions():
    """Times that edition one allows and edition two does not, in the state of a site of either."""
    for kind, answers in ((1, ((0, 309), (0, 308))), (8, ((13, 0), (13, 0)))):
        site = junction_two(kind=kind)
        # A start red of 29, and an all-red of A of 14.
        states = [put(fresh_state(site), RULING + at, time) for at, time in ((0, 29), (12, 14))]
        vector = Vector(record_of(site, state=states[0]) + record_of(site, 2, state=states[1]) + FREE * 2)
        for record, answer in enumerate(answers):
            assert vector.call(STEP, record, 0) == answer, (kind, record)
        yield vector


def orders():
    """Each call with its wrongs one less at a time, so that each refusal comes before all that follow it."""
    site, wrong = junction(), junction()[:20] + b"\x1d" + junction()[21:]
    no_state = b"\xff" * STATE_BYTES
    vector = Vector(record_of(site) + FREE * 2 + record_of(site, 10), bytes([9] * 31))
    for call, answer in (((0, wrong, 31), (5, 20)), ((9, b"", 31), (1, 0)), ((0, site, 31), (24, 0)), ((4, site, 31), (24, 0)),
                         ((1, site, 31), (25, 0)), ((1, site, 11), (25, 0)), ((1, site, 12), (14, 0))):
        assert vector.call(PLACE, *call) == answer, call
    yield vector
    row = record_of(wrong, 31) + record_of(site, 31, state=no_state) + record_of(site, 4, state=no_state) + record_of(site, 6)
    vector = Vector(row, bytes([9] * 31))
    for call, answer in (((4, 4), (24, 0)), ((0, 4), (5, 20)), ((1, 4), (25, 0)), ((2, 4), (13, 0)), ((3, 4), (15, 0)), ((3, 3), (14, 0))):
        assert vector.call(STEP, *call) == answer, call
    for record, answer in ((4, (24, 0)), (0, (5, 20)), (1, (25, 0)), (2, (14, 0))):
        assert vector.call(TAKE_OUT, record) == answer, record
    yield vector


# ── Records and buffers beside what is accepted ──

def firsts():
    """Sites of several sizes beside each other: each first output of a placing, and each first output of a record."""
    one, two = random_site(random.Random(1), 3), junction()
    for other in (two, three_phases(), largest()):
        for first in range(40):
            vector = Vector(record_of(other, 30 - first % 29) + FREE * 3)
            for record, personality in ((1, one), (2, two)):
                vector.call(PLACE, record, personality, first)
            yield vector
    for first in range(0, 256, 3):
        vector = Vector(record_of(two, first) + FREE * 3, bytes([9] * 40))
        for call in ((PLACE, 1, one, 29), (PLACE, 2, two, 30), (STEP, 0, 0), (TAKE_OUT, 0), (PLACE, 3, largest(), 0)):
            vector.call(*call)
        yield vector
    vector = Vector()
    for first in (*FAR, (1 << 64) - 2, (1 << 64) - 32, 288, 33, 32, 31, 30):
        vector.call(PLACE, 0, two, first)
    yield vector


def heads():
    """Held by any number, lengths beside the personality's and above the room, and old bytes in free records."""
    site, big = junction(), largest()
    calls = ((PLACE, 1, site, 1), (STEP, 0, 0), (TAKE_OUT, 0), (PLACE, 0, site, 4), (STEP, 0, 0))
    rows = [record_of(site, held=held) for held in (0, 1, 2, 127, 128, 255)]
    rows += [record_of(data, length=length) for data in (site, big) for length in (0, 4, 67, 68, 69, 476, 477, 478, 580, 733, 65535)]
    rows += [record_of(site.ljust(ROOM, byte), length=68) for byte in (b"\1", b"\xff")]
    rows += [record_of(site, state=state) for state in (bytes(STATE_BYTES), b"\xff" * STATE_BYTES)]
    rows += [b"\xff" * RECORD_BYTES, b"\0" + b"\xff" * (RECORD_BYTES - 1), b"\1" + bytes(RECORD_BYTES - 1)]
    for first in rows:
        vector = Vector(first + FREE * 3, bytes([9] * 33))
        for call in calls:
            vector.call(*call)
        yield vector


def lengths():
    """Rows of other numbers of records, and outputs of other lengths."""
    site = junction()
    row = record_of(site) + record_of(site, 2) + FREE * 2
    calls = ((PLACE, 2, site, 4), (PLACE, 2, b"", 4), (STEP, 1, 0), (TAKE_OUT, 0))
    for records in (0, 1, 2, 3, 5, 6, 7, 8):
        vector = Vector((row * 2)[:records * RECORD_BYTES], bytes([9] * 32))
        assert [vector.call(*call) for call in calls] == [(24, 0), (1, 0), (24, 0), (24, 0)]
        yield vector
    for size in (*range(30, 35), 0, 1, 64):
        vector = Vector(row, bytes([9] * size))
        for call in calls:
            vector.call(*call)
        yield vector


# ── Anything ──

def any_state(rng, personality):
    """A valid state by any times, or one with a thing wrong."""
    data = random_data(rng, personality)
    return damaged(rng, personality, data) if rng.random() < 0.3 else data


def some_site(rng):
    return random_site(rng, rng.choice((3, 8, 8, 16, 32)), kind=rng.choice((1, 8)))


def any_record(rng):
    """A free record, a site as placed and stepped, or a record of any content."""
    if rng.random() < 0.25:
        return FREE
    personality = rng.choice((junction(), junction_two(), junction_two(29), turning_arrow(), some_site(rng), some_site(rng), some_site(rng)))
    free = OUTPUTS - personality[5]
    state = None if verdict_of(personality)[0] else any_state(rng, personality)
    data = record_of(personality, rng.choice((0, free, rng.randint(0, free))), state=state)
    changed = lambda at, value: data[:at] + bytes((value,)) + data[at + 1:]
    twist = rng.randrange(16)
    if twist == 0:
        data = changed(0, rng.choice((0, 2, 255)))
    elif twist == 1:
        data = changed(1, rng.choice((free + 1, 31, 32, rng.randrange(256))) & 255)
    elif twist == 2:
        data = data[:2] + little(rng.choice((0, len(personality) - 1, len(personality) + 1, 478, 65535)), 2) + data[4:]
    elif twist == 3:
        data = changed(4 + rng.randrange(len(personality)), rng.randrange(256))
    elif twist == 4:
        data = data[:4] + rng.randbytes(RECORD_BYTES - 4)
    elif twist == 5:
        data = data[:4 + len(personality)] + rng.randbytes(ROOM - len(personality)) + data[4 + ROOM:]
    return data


def any_inputs(rng, records, index):
    """Inputs of a step: most have detectors and buttons, if the record has a site."""
    wired = 0
    if index < len(records) and has_site(records[index]):
        wired = site_of(records[index].personality).wired
    inputs = wired & rng.getrandbits(64) & rng.getrandbits(64)
    return inputs if rng.random() < 0.9 else inputs | 1 << rng.randrange(64)


def has_site(record):
    return record.held and not verdict_of(record.personality)[0]


def any_retiming(rng, records, index):
    """A retiming of a record that the row has, most often of a site; many are accepted."""
    index = index if index < len(records) else 0
    personality = records[index].personality if has_site(records[index]) else some_site(rng)
    return RETIME, index, second(rng, personality)


def any_call(rng, cabinet):
    """A call that often finds what it is about."""
    records = cabinet.records()
    held = [index for index, record in enumerate(records) if record.held]
    free = [index for index, record in enumerate(records) if not record.held]
    kind = rng.choices((PLACE, STEP, TAKE_OUT, RETIME), (3, 8, 1, 3))[0]
    fitting = free if kind == PLACE else held
    index = rng.choice(fitting) if fitting and rng.random() < 0.85 else rng.choice((0, 1, 2, 3, rng.choice(FAR)))
    if kind == PLACE:
        personality = some_site(rng)
        taken = set().union(*(record.taken() for record in records))
        groups = len(site_of(personality).groups)
        gaps = [at for at in range(OUTPUTS - groups + 1) if not taken & set(range(at, at + groups))]
        anywhere = rng.choice((rng.randrange(34), OUTPUTS - groups, OUTPUTS - groups + 1, rng.choice(FAR)))
        first = rng.choice(gaps) if gaps and rng.random() < 0.7 else anywhere
        return PLACE, index, personality if rng.random() < 0.9 else personality[:rng.randrange(len(personality))], first
    if kind == STEP:
        return STEP, index, any_inputs(rng, records, index)
    return (TAKE_OUT, index) if kind == TAKE_OUT else any_retiming(rng, records, index)


def rows():
    """Calls on rows of any content."""
    rng = random.Random(10)
    for _ in range(220):
        row = b"".join(any_record(rng) for _ in range(RECORDS))
        vector = Vector(row, rng.randbytes(rng.choice((OUTPUTS, OUTPUTS, OUTPUTS + 1, OUTPUTS - 1, 50))))
        for record in range(RECORDS):
            vector.call(STEP, record, any_inputs(rng, vector.cabinet.records(), record))
        for _ in range(4):
            vector.call(*any_call(rng, vector.cabinet))
        yield vector


def lists():
    """Long lists of calls on a cabinet that is empty at first."""
    rng = random.Random(24)
    for _ in range(20):
        vector = Vector()
        for _ in range(60):
            vector.call(*any_call(rng, vector.cabinet))
        yield vector


def runs():
    """A long run of sites that take turns, with new times for some of them."""
    rng = random.Random(25)
    for _ in range(3):
        vector, first, sites = Vector(), 0, []
        for record in range(RECORDS):
            kind = rng.choice((1, 8))
            personality = random_site(rng, 8, quick_ranges(kind), kind)
            vector.call(PLACE, record, personality, first)
            sites.append(personality)
            first += len(site_of(personality).groups)
        lasting = [0] * RECORDS
        for _ in range(600):
            record = rng.randrange(RECORDS)
            if rng.random() < 0.2:
                lasting[record] = site_of(sites[record]).wired & rng.getrandbits(64) & rng.getrandbits(64)
            if record > 0 and rng.random() < 0.08:
                vector.call(RETIME, record, second(rng, sites[record]))
            vector.call(STEP, record, lasting[record])
        yield vector


# What the vectors must have, and how often at least.
NEEDED = {
    5: [("retime", found) for found in (0, 1, 2, 5, 13, 26)] + [("place", found) for found in (0, 1, 14, 24, 25)]
    + [("step", found) for found in (0, 13, 14, 15, 24, 25)] + [("take out", found) for found in (0, 14, 24, 25)],
    50: ["step by other times than its own", "change of times"],
}


def main():
    with open(sys.argv[1], "wb") as out:
        for part in (worked, worked_retimings, refused_retimings, editions, orders, firsts, heads, lengths, rows, lists, runs):
            for vector in part():
                out.write(vector.data())
    missing = {what: Vector.seen[what] for least, some in NEEDED.items() for what in some if Vector.seen[what] < least}
    assert not missing, missing


main()
