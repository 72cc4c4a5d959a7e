#!/usr/bin/env python3
"""Writes the waits of personalities: for each, the personality behind a two-byte length; the number (1) and the place or the number of bytes (4);
and the bytes that are written to a buffer that is long enough, behind a two-byte length. Who reads them tries buffers of every length.

Usage: make_waits.py OUT [SEED SITES]. Without a seed the same file comes out at every run. With one there are so many random sites, and
nothing else."""
import random
import sys
from collections import Counter

from controller import Site
from draws import refused, retimed
from model import build, junction, junction_two, largest, quick_ranges, random_site, three_phases, turning_arrow
from waits import all_waits, first, greens, leaving, over, own, turn, waits, walkers

seen = Counter()


def little(value, size):
    return value.to_bytes(size, "little")


def vector(personality):
    found, rest, written = waits(personality)
    seen["number", found] += 1
    if found == 0:
        watch(Site(personality))
    return little(len(personality), 2) + personality + little(found, 1) + little(rest, 4) + little(len(written), 2) + written


# ── What the sites show ──

def watch(site):
    """Counts which part decides each number."""
    phases = range(len(site.phases))
    for p in phases:
        plain = greens(site, p) + leaving(site, p)
        seen["turn", "by a walk" if turn(site, p) > plain else "by the green"] += 1
        after = site.after(p)[0]
        parts = {"start red": site.start, "its own leaving": leaving(site, p),
                 "another leaving": max([leaving(site, r) for r in phases if r not in (p, after)], default=0),
                 "second clearance": max([site.walks[k]["C2"] for r in phases if r != after for k in walkers(site, r)], default=0)}
        for part, length in parts.items():
            seen["first", part] += sum(other >= length for other in parts.values()) == 1 and first(site, p) == length
        seen["first", "shorter than leaving of the next"] += first(site, p) < leaving(site, after)
        seen["wait with late start"] += site.phases[p]["L"] > 0
    for m, q in enumerate(site.phase_of):
        others = [k for k in walkers(site, q) if k != m]
        back = site.walks[m]["C1"] + site.walks[m]["C2"]
        in_turn, cleared = over(site, q, greens(site, q), 0, others), over(site, q, back, back, others)
        seen["own", "the turn" if in_turn > cleared else "the clearances"] += 1
        seen["own", "the clearances, another walk"] += cleared > max(in_turn, over(site, q, back, back, []))
        seen["own", "the turn, another walk"] += in_turn > max(cleared, over(site, q, greens(site, q), 0, []))
        seen["first longer than own"] += first(site, q) > own(site, m)
    seen["order, not that of the letters"] += site.order != list(phases)


# ── Cases known without this model ──

def long_clearance(others=()):
    """Two phases, a crossing of A with long clearances, and others of A."""
    walks = [(10, 200, 100), *others]
    return build(10, [(0, 10, 100, 5, 30, 10), (0, 10, 10, 0, 30, 10)], [(1, 0), (2, 0)] + [(1, 2)] * len(walks), {(0, 1)},
                 [(0, 4), (1, 1)], walks)


def worked():
    """By hand. The junction: A clears for 40 steps, and B has 20 + 30 of green and 40 to clear. The crossing: a turn of A is 110 of green, a step
    in which the walk ends, 200 and 100; a turn of B is 20 and 40; a press while the crossing clears waits for 300, 40 and the turn of B."""
    cases = ((junction(), [130, 130]),
             (junction_two(), [45 + 95] * 2),
             (turning_arrow(), [60 + 90, 40 + 110]),
             (turning_arrow((20, 7)), [60 + 97, 47 + 110]),
             (three_phases(), [220] * 3),
             (long_clearance(), [100 + 60, 40 + 411, 400]),
             (long_clearance([(60, 5, 20)]), [100 + 60, 40 + 411, 300 + 60 + 5 + 40 + 60, 411 + 60]))
    for personality, expected in cases:
        assert all_waits(personality) == expected, (all_waits(personality), expected)
        yield personality
    yield largest()
    yield b""


def sites(rng, count):
    """Sites of any size and either edition, their times from the whole of each range or from its low end, and refused ones."""
    for index in range(count):
        kind = rng.choice((1, 8))
        personality = random_site(rng, ranges=quick_ranges(kind) if index % 3 == 0 else None, kind=kind)
        yield personality
        yield retimed(rng, personality)
        if index % 4 == 0:
            yield refused(rng, personality)


# How often each must be seen without a seed.
NEEDED = {
    100: [("number", 0), ("turn", "by a walk"), ("turn", "by the green"), ("first", "its own leaving"),
          ("first", "another leaving"), ("first", "second clearance"), ("first", "shorter than leaving of the next"), "wait with late start",
          ("own", "the turn"), ("own", "the clearances"), ("own", "the clearances, another walk"), ("own", "the turn, another walk"),
          "order, not that of the letters"],
    40: [("number", 5), ("first", "start red"), "first longer than own"],
    5: [("number", found) for found in (1, 3, 12)],
}


def main():
    out, *arguments = sys.argv[1:]
    if arguments:
        seed, count = map(int, arguments)
        parts = (sites(random.Random(seed), count),)
    else:
        parts = (worked(), sites(random.Random(33), 1500))
    with open(out, "wb") as file:
        for part in parts:
            for personality in part:
                file.write(vector(personality))
    few = [(what, seen[what]) for least, some in NEEDED.items() for what in some if seen[what] < least]
    if arguments:
        print(*(f"{what}: {count}" for what, count in sorted(seen.items(), key=str)), sep=", ")
    elif few:
        sys.exit(f"seen too seldom: {few}")


main()
