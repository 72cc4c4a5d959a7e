#!/usr/bin/env python3
"""Writes the vectors of the simulated road. Of each: the personality and the streams, both behind a two-byte length; the steps (4 bytes);
the lengths of the state buffer and of the result buffer (2 bytes each); the number (1) and the place (4); of an accepted road the last
state and the results, four bytes for each stream.

Usage: make_roads.py OUT. The same file comes out at every run."""
import random
import sys

from model import PEDESTRIAN, build, junction, junction_two, largest, number, random_site, three_phases, turning_arrow
from retime import STATE_BYTES, site_of
from road import road

WORKED = [
    (((0, 0, 1800), (1, 1, 1800)), 200, (0, 2, 11), ((8, 2), (8, 2))),
    (((1, 0, 1800), (1, 1, 900)), 200, (1, 3, 110), ((10, 0), (1, 4))),
    (((0, 0, 600), (1, 1, 300)), 36_000, (1, 5, 28), ((4, 596), (1, 299))),
    (((0, 0, 1800), (1, 1, 1800)), 36_000, None, ((1400, 400), (1400, 400))),
]


def of(*streams):
    return b"".join(bytes((d, g)) + rate.to_bytes(2, "little") for d, g, rate in streams)


def worked():
    """The worked cases of the junction, which are known without this model."""
    for streams, steps, stands, vehicles in WORKED:
        _, _, state, results = road(junction(), of(*streams), steps, STATE_BYTES, 8)
        assert stands in (None, (state[0], state[1], number(state, 2, 2))), (streams, steps)
        assert vehicles == tuple((number(results, at, 2), number(results, at + 2, 2)) for at in (0, 4)), (streams, steps)
        yield junction(), of(*streams), steps, STATE_BYTES, 8


def wrongs():
    """Each way of 22 beside its last accepted neighbour, buffers beside their lengths, and each wrong before and behind the others."""
    site = build(10, [(0, 20, 30, 5, 30, 10)] * 2, [(1, 0), (2, 0), (1, PEDESTRIAN)], {(0, 1)}, [(0, 6), (1, 6), (0, 0)], [(10, 1, 1)])
    good = (0, 0, 1800)
    for streams in ([], [good] * 48, [good] * 49, [good] * 256, [(2, 1, 1800)], [(3, 1, 1800)], [(255, 1, 0)], [(0, 2, 0)], [(0, 3, 0)],
                    [(0, 32, 0)], [(0, 255, 0)], [(0, 0, 1801)], [(0, 0, 65_535)], [good, (0, 0, 1801)], [good] * 47 + [(3, 0, 0)]):
        yield site, of(*streams), 30, STATE_BYTES, 4 * len(streams)
    for steps in (0, 1, 180_001, 2**31, 2**32 - 1):
        yield site, of(good), steps, STATE_BYTES, 4
    yield from ((site, of(good, good)[:size], 30, STATE_BYTES, 8) for size in range(9))
    yield from ((site, of(good, good), 30, STATE_BYTES + more, 8) for more in (-STATE_BYTES, -256, -1, 0, 1, 256))
    yield from ((site, of(good, good), 30, STATE_BYTES, size) for size in (0, 4, 7, 8, 9, 12, 300))
    for personality in (site, site[:-1], b""):
        for streams in (of(good), of((3, 0, 1801))):
            for state in (STATE_BYTES, 0):
                yield from ((personality, streams, 30, state, size) for size in (3, 4))


def random_streams(rng, site):
    """Up to 48 streams of a site, most of a group of their detector's phase."""
    vehicles = [g for g, (_, mark) in enumerate(site.groups) if mark != PEDESTRIAN]
    if not (vehicles and site.detectors):
        return b""
    few = rng.random() < 0.6
    rates = rng.choice(((0, 1800), (0, 400), (1400, 1800)))
    streams = []
    for _ in range(rng.randint(0, 6 if few else 48)):
        detector = rng.randrange(len(site.detectors))
        own = [g for g in vehicles if site.groups[g][0] >> site.detectors[detector][0] & 1]
        group = rng.choice(own if own and rng.random() < 0.7 else vehicles)
        streams.append((detector, group, rng.choice((0, 1, 1800, rng.randint(*rates), rng.randint(*rates)))))
    return of(*streams)


def sites():
    rng = random.Random(8)
    known = [junction(), turning_arrow(), turning_arrow((35, 10)), three_phases(), three_phases(early=(1, 29, 31)), largest()]
    for personality in known * 4 + [random_site(rng) for _ in range(120)]:
        streams = random_streams(rng, site_of(personality))
        steps = rng.choice((rng.randint(0, 60), rng.randint(60, 900), rng.randint(60, 900), rng.randint(900, 4_000)))
        yield personality, streams, steps, STATE_BYTES, len(streams) + rng.choice((0, 0, 1, 5))
    for personality in (junction_two(), junction_two(29), junction_two(29, kind=1), *[random_site(rng, kind=8) for _ in range(20)]):
        streams = of((0, 0, 1800)) if personality[5] == 2 else random_streams(rng, site_of(personality))
        yield personality, streams, rng.randint(60, 900), STATE_BYTES, len(streams)


def main():
    with open(sys.argv[1], "wb") as out:
        for vector in (vector for part in (worked(), wrongs(), sites()) for vector in part):
            personality, streams, steps, state_length, results_length = vector
            found, place, state, results = road(*vector)
            for data in (personality, streams):
                out.write(len(data).to_bytes(2, "little") + data)
            out.write(steps.to_bytes(4, "little") + state_length.to_bytes(2, "little") + results_length.to_bytes(2, "little"))
            out.write(bytes([found]) + place.to_bytes(4, "little") + state + results)


main()
