#!/usr/bin/env python3
"""Writes the vectors of the reader: for each, a two-byte length, the bytes, the number (1 byte) and the place (4 bytes).

Usage: make_reads.py OUT. The same file comes out at every run. What is covered is listed in `vectors`, in order."""
import random
import sys

from model import (EARLY_CUT_OFF, EDITIONS, PEDESTRIAN, PHASE_FIELDS, VEHICLE, WALK_FIELDS, build, junction, junction_two, largest, number,
                   random_site, section, three_phases, turning_arrow, twos, verdict)


def put(data, at, value, size=2):
    return data[:at] + value.to_bytes(size, "little") + data[at + size:]


def heads(data):
    """The places of the section heads of accepted bytes, six or more."""
    found, at = [], 0
    while at < len(data):
        found.append(at)
        at += 4 + number(data, at, 2)
    return found


def limits(data, ranges=EDITIONS[1]):
    """Every time field of the bytes that has a range, at its limits and one past each."""
    h = heads(data)
    fields = [(6, "start")]
    fields += [(h[1] + 4 + 12 * p + 2 * i, n) for p in range(data[4]) for i, n in enumerate(PHASE_FIELDS)]
    pedestrians = number(data, h[5], 2) // 6
    fields += [(h[5] + 4 + 6 * k + 2 * i, n) for k in range(pedestrians) for i, n in enumerate(WALK_FIELDS)]
    early = next((head for head in h if number(data, head + 2, 2) == 7), None)
    fields += [(early + 4 + 2 * p, "E") for p in range(0 if early is None else data[4])]
    for at, name in fields:
        if name not in ranges:
            continue
        low, high = ranges[name]
        for value in (low - 1, low, high, high + 1):
            if value >= 0:
                yield put(data, at, value)


def each_byte(data, values):
    for at in range(len(data)):
        for value in values:
            yield put(data, at, value, 1)


def refusals(data):
    """Wrong heads, counts, groups, conflicts and detectors, at the first and the last record of each section."""
    h = heads(data)
    for head in h:
        yield put(data, head, number(data, head, 2) + 1)
        yield put(data, head + 2, 7)
        yield put(data, head + 2, 8)
        yield put(data, head + 2, 9)
        yield data[:head + 3]
        yield data[:head + 4]
    for at, values in ((4, (0, 1, 2, 7, 8, 255)), (5, (0, 1, 32, 33, 255))):
        for value in values:
            yield put(data, at, value, 1)
    groups = data[5]
    for g in (0, groups - 1):
        at = h[2] + 4 + 2 * g
        for members in (0, 3, 1 << data[4], 255):
            for mark in (0, 1, 2, 3, 4):
                yield put(put(data, at, members, 1), at + 1, mark, 1)
        row = h[3] + 4 + 4 * g
        for value in (0, 1 << g, 1 << groups if groups < 32 else 0, (1 << 32) - 1, number(data, row, 4) ^ 1):
            yield put(data, row, value & ((1 << 32) - 1), 4)
    detectors = number(data, h[4], 2) // 2
    for d in {0, detectors - 1} if detectors else ():
        at = h[4] + 4 + 2 * d
        for phase in (0, data[4] - 1, data[4], 255):
            for mode in (0, 2, 3, 6, 7, 8, 255):
                yield put(put(data, at, phase, 1), at + 1, mode, 1)


def nine_pedestrians(before, after):
    """Nine pedestrian groups in a row: number 7 at the ninth, which has this many vehicle groups before the first."""
    row = (0, 20, 30, 5, 30, 10)
    groups = [(3, VEHICLE)] * before + [(1, PEDESTRIAN)] * 9 + [(3, VEHICLE)] * after
    return build(10, [row, row], groups, set(), [], [(10, 1, 1)] * 9)


def sharing(count, g, j):
    """Number 10: of so many groups of phase A, and one of B, only g and j conflict."""
    row = (0, 20, 30, 5, 30, 10)
    groups = [(1, 0)] * (count - 1) + [(3, 0)]
    return build(10, [row, row], groups, {(g, j)}, [], [])


def groups_refused():
    """Numbers 7, 8 and 10 at their first and last places."""
    row = (0, 20, 30, 5, 30, 10)
    yield nine_pedestrians(0, 1)
    yield nine_pedestrians(23, 0)
    yield build(10, [row] * 3, [(1, 0), (4, 0)], {(0, 1)}, [], [])
    yield build(10, [row] * 2, [(0, 0), (3, 0)], set(), [(0, 1), (1, 1)], [])
    yield sharing(2, 0, 1)
    yield sharing(32, 30, 31)


def early_cut_offs():
    """A section of early cut-off times: cut before each byte, of another length, behind it more bytes, and not there."""
    arrow, plain = turning_arrow(), junction() + turning_arrow()[74:]
    for data in (arrow, plain):
        yield from (data[:size] for size in range(heads(data)[6], len(data) + 1))
        yield from (data + more for more in (b"\1", data[heads(data)[6]:], data[heads(data)[5]:]))
    yield from each_byte(arrow, (0, 3, 7, 201))
    for length in (0, 1, 2, 3, 5, 6, 14, 260):
        yield arrow[:74] + length.to_bytes(2, "little") + b"\7\0" + bytes(length)
    without = turning_arrow(None)
    for more in (b"", b"\4\0\7", b"\4\0\7\1\0\0\0\0", b"\4\0\6\0\0\0\0\0", b"\0"):
        yield without + more
    yield put(without, 41, EARLY_CUT_OFF, 1)
    yield put(without, 69, 3, 1)
    yield without + b"\4\0\7\0" + twos((200, 200))


def orders():
    """A section with the order of the phases: every order and every wrong one of three phases, cut before each byte, of another length,
    behind it more bytes, and beside early cut-off times; each phase of seven at each place, and a phase twice at sites of any size."""
    for order in range(64):
        yield three_phases((order & 3, order >> 2 & 3, order >> 4))
    first, both = three_phases(), three_phases(early=(1, 2, 3))
    for data in (first, both):
        yield from (data[:size] for size in range(88, len(data) + 1))
        yield from (data + more for more in (b"\1", data[heads(data)[-1]:], section(7, twos((1, 2, 3))), data[heads(data)[5]:]))
        yield put(data, 53, EARLY_CUT_OFF, 1)
        yield put(put(data, 53, EARLY_CUT_OFF, 1), len(data) - 1, 2, 1)
    for length in (0, 1, 2, 4, 5, 6, 255, 256, 259):
        yield first[:88] + section(9, bytes(range(3)).ljust(length, b"\0")[:length])
    yield first + section(7, twos((1, 2, 3)))
    yield put(first, 53, EARLY_CUT_OFF, 1) + section(7, twos((1, 2, 3)))
    yield from each_byte(both, (0, 2, 9, 255))
    big, rng = largest(), random.Random(9)
    yield from (put(big, at, phase, 1) for at in range(len(big) - 7, len(big)) for phase in range(8))
    sites = [random_site(rng) for _ in range(30)]
    yield from (site[:-1] + site[-2:-1] for site in sites if number(site, heads(site)[-1] + 2, 2) == 9)


def silenced(data, phase):
    """The bytes with the detectors of a phase that only extend, or do nothing."""
    head = heads(data)[4]
    for at in range(head + 4, head + 4 + number(data, head, 2), 2):
        if data[at] == phase:
            data = put(data, at + 1, data[at + 1] & 4, 1)
    return data


def uncalled():
    """A phase that nobody can call: every mode of both detectors of the junction, no detectors, calls by pedestrian groups; before mark 3
    without times and bytes left over; each phase of sites of any size without its calls."""
    row = (0, 20, 30, 5, 30, 10)
    modes = (0, 1, 2, 4, 5, 6)
    yield from (put(put(junction(), 61, a, 1), 63, b, 1) for a in modes for b in modes)
    for detectors in ([], [(0, 1)], [(1, 1)], [(0, 4), (1, 5)]):
        for groups, walks in (([(3, 0)], 0), ([(3, 0), (1, 2)], 1), ([(3, 0), (2, 2)], 1), ([(1, 2), (2, 2)], 2)):
            yield build(10, [row] * 2, groups, set(), detectors, [(10, 1, 1)] * walks)
    yield put(turning_arrow(None), 69, 4, 1) + b"\0"
    yield put(turning_arrow(), 69, 4, 1) + b"\0"
    yield put(three_phases((0, 0, 0)), 83, 4, 1)
    rng = random.Random(21)
    for _ in range(20):
        site = random_site(rng)
        yield from (silenced(site, phase) for phase in range(site[4]))


def editions():
    """Both first kinds and others; start red and all-red of small and large sites at the limits of both editions; kind 8 in later
    places; what is checked before and behind the times of the site section; sites of any size of edition two, as edition one, and
    damaged."""
    two, big = junction_two(), put(largest(), 2, 8)
    for data in (two, big, junction_two(150, (150, 150)), junction_two(29), junction_two(30, (14, 15)), junction_two(30, (15, 14)),
                 junction_two(29, (14, 14)), junction_two(29, (14, 14), kind=1), put(junction(), 2, 8)):
        yield data
    for data in (junction(), two, big):
        yield from (put(data, 2, kind) for kind in (0, 1, 2, 3, 4, 5, 6, 7, 8, 9, 10, 256, 257, 264, 0x0800, 0x0801, 65535))
    yield from limits(two, EDITIONS[8])
    for data in (two, put(two, 2, 1), big, largest()):
        for ranges in EDITIONS.values():
            yield from limits(data, {name: ranges[name] for name in ("start", "R")})
    for data in (junction(), two, three_phases(early=(1, 2, 3)), put(big, 2, 8)):
        h = heads(data)
        yield from (put(data, head + 2, 8) for head in h[1:])
        yield from (data[:head] + two[:8] + data[head:] for head in h)
        yield from (data + more for more in (two[:8], two[:4], two[:3], junction()[:8], section(8, b"")))
    yield from (two[:size] for size in range(len(two)))
    yield from each_byte(two, (0, 1, 8, 29))
    yield from refusals(two)
    rng = random.Random(11)
    for _ in range(40):
        site = random_site(rng, kind=rng.choice((1, 8, 8)))
        yield from (site, put(site, 2, 9 - number(site, 2, 2)))
        for _ in range(3):
            yield damaged(rng, site)


def damaged(rng, data):
    """A byte changed, cut, doubled or added."""
    at = rng.randrange(len(data))
    kind = rng.randrange(4)
    if kind == 0:
        return put(data, at, rng.randrange(256), 1)
    if kind == 1:
        return data[:at]
    if kind == 2:
        return data[:at] + data[at:at + 1] + data[at:]
    return data + bytes(rng.randrange(256) for _ in range(rng.randint(1, 8)))


def vectors():
    rng = random.Random(5493)
    two, big = junction(), largest()
    yield from (two, big)
    yield from (two[:n] for n in range(len(two)))
    yield two + b"\0"
    yield from each_byte(two, (0, 1, 2, 3, 7, 255))
    for data in (two, big):
        yield from limits(data)
        yield from refusals(data)
    yield from groups_refused()
    yield from early_cut_offs()
    yield from orders()
    yield from uncalled()
    for _ in range(100):
        site = random_site(rng)
        yield site
        for _ in range(6):
            yield damaged(rng, site)
    yield from editions()


def main():
    with open(sys.argv[1], "wb") as out:
        for data in vectors():
            found, place = verdict(data)
            out.write(len(data).to_bytes(2, "little") + data + bytes([found]) + place.to_bytes(4, "little"))


main()
