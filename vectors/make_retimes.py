#!/usr/bin/env python3
"""Writes lists of calls with new times among them. Each call of a list gets the state buffer as the call before it left it. Of each list:
the personality and the buffer before the first call, both behind a two-byte length; the number of calls (2 bytes); the calls. Of each call:
what it is (1), and what else it gets: 0 a fresh state; 1 a step, its inputs (8) and the length of its colour buffer (1); 2 a retiming, the
new personality behind a two-byte length. Then what comes of it: the number (1) and the place or the wait (4); how many bytes of the buffer
change (2), and of each the place (2) and the byte (1); of a step also the colours that it writes, behind a one-byte length.

Usage: make_retimes.py OUT [SEED LISTS]. Without a seed the same file comes out at every run. With one there are so many lists of random
calls, and nothing else."""
import random
import sys
from collections import Counter

from controller import L, M, R, S, WALK
from draws import Traffic, damaged, elsewhere, put, random_data, random_state, refused, retimed, second
from model import PEDESTRIAN, build, conflicts_of, junction, junction_two, largest, random_site, three_phases, turning_arrow
from retime import (FLAG, NO_TIMES, RULING, STATE_BYTES, WAITING, fresh, put_together, retime, site_of, step, taken_apart, times_of,
                    with_times)

BEFORE_A_START = (S, R)
OLD, LONGER = (0, 20, 30, 5, 30, 10), (0, 40, 60, 10, 40, 20)


# ── Lists and what they show ──

class Calls:
    """A list of calls as it goes on."""
    seen = Counter()

    def __init__(self, personality, data=None):
        self.personality, self.first = personality, bytes(STATE_BYTES) if data is None else data
        self.data, self.calls, self.last = self.first, [], None
        if data is None:
            self.fresh()

    def add(self, call, found, rest, data, colours=None):
        end = len(data) if data[RULING:] != self.data[RULING:] else min(len(data), RULING)
        changed = [(at, data[at]) for at in range(end) if data[at] != self.data[at]]
        call += bytes([found]) + rest.to_bytes(4, "little") + len(changed).to_bytes(2, "little")
        call += b"".join(at.to_bytes(2, "little") + bytes([new]) for at, new in changed)
        self.calls.append(call if colours is None else call + bytes([len(colours)]) + colours)
        self.data = data

    def fresh(self):
        found, place, data = fresh(self.personality, self.data)
        self.add(b"\0", found, place, data)

    def step(self, inputs=0, colours_length=32):
        found, rest, data, colours = step(self.personality, self.data, inputs, colours_length)
        self.watch_step(found, data)
        self.add(b"\1" + inputs.to_bytes(8, "little") + bytes([colours_length]), found, rest, data, colours)
        self.last = None
        return found, rest, colours

    def retime(self, new):
        found, place, data = retime(self.personality, self.data, new)
        self.watch_retiming(new, found)
        self.add(b"\2" + len(new).to_bytes(2, "little") + new, found, place, data)
        self.last = found
        return found, place

    def bytes(self):
        return (len(self.personality).to_bytes(2, "little") + self.personality + len(self.first).to_bytes(2, "little") + self.first
                + len(self.calls).to_bytes(2, "little") + b"".join(self.calls))

    def parts(self, data=None):
        return taken_apart(self.personality, self.data if data is None else data)

    def valid_as_edition_one(self):
        """Whether the same state is valid at the same site of edition one."""
        first = self.personality[:2] + b"\1" + self.personality[3:]
        return taken_apart(first, self.data) is not None

    def site(self, times):
        return site_of(with_times(self.personality, times))

    def watch_retiming(self, new, found):
        self.seen["retiming", found] += 1
        if len(new) == len(self.personality) and new[2:3] != self.personality[2:3]:
            self.seen["retiming with first kind", new[2], found] += 1
        if found:
            return
        self.seen["retimed by edition of kind", self.personality[2]] += 1
        state, ruling, waiting = self.parts()
        self.seen["retimed in", "SLMGEYR"[state.interval]] += 1
        self.seen["two in a row"] += self.last == 0
        self.seen["replaced"] += waiting is not None
        self.seen["equal to the first"] += new == self.personality
        self.seen["equal to those that rule"] += times_of(new) == ruling

    def watch_step(self, found, data):
        self.seen["step", found] += 1
        self.seen["times of edition one alone"] += found == 13 and self.valid_as_edition_one()
        if found:
            return
        if self.data[1] not in BEFORE_A_START or data[1] not in (L, M) or not self.data[FLAG]:
            return
        (before, ruling, waiting), (after, _, _) = self.parts(), self.parts(data)
        old, new = self.site(ruling).phases[after.phase]["L"], self.site(waiting).phases[after.phase]["L"]
        self.seen["change after", "SLMGEYR"[before.interval]] += 1
        self.seen["change to equal times"] += ruling == waiting
        self.seen["late start for none, locked"] += old == 0 and new > 0 and after.phase in after.locks
        self.seen["late start for none, 20"] += old == 0 and new == 20
        self.seen["no late start for 20, locked"] += old == 20 and new == 0 and after.phase in before.locks
        self.seen["walk begun in a change"] += any(stage == WALK for stage, _ in after.stages)
        self.seen["counts in start red before a change"] += before.interval == S and before.gap > 0 and before.maximum > 0
        self.seen["demand carried"] += bool(after.locks | after.presses)


# ── What is written ──

def quick_site(rng):
    """A random site of either edition; most have short times, so that many phases start."""
    personality = random_site(rng, kind=rng.choice((1, 8)))
    return retimed(rng, personality, "short") if rng.random() < 0.8 else personality


def worked():
    """The worked cases of the junction, which are known without this model."""
    new = build(20, [LONGER] * 2, [(1, 0), (2, 0)], {(0, 1)}, [(0, 6), (1, 6)], [])
    as_before = ["1 A S RR 270", "10 A M GR 270", "30 A G GR 270", "31 A Y YR 270", "61 A R RR 270"]
    from_start_red = ["1 A S RR 270", "10 A M GR 460", "50 A G GR 460", "51 A Y YR 460", "91 A R RR 460", "111 B M RG 460"]
    then = ["71 B M RG 460", "111 B G RG 460"]
    cases = [({20: new}, {}, as_before + then), ({65: new}, {}, as_before + then), ({5: new}, {}, from_start_red),
             ({20: new, 40: junction()}, {}, as_before + ["71 B M RG 270", "91 B G RG 270"]),
             ({20: new}, {80: 1}, as_before + then + ["112 B Y RY 460", "152 B R RR 460", "172 A M GR 460"])]
    for retimings, more, expected in cases:
        calls, shown, last = Calls(junction()), [], None
        for now in range(1, 201):
            if now in retimings:
                assert calls.retime(retimings[now]) == (0, 0)
            found, wait, colours = calls.step({12: 2, **more}.get(now, 0), 2)
            state = calls.parts()[0]
            line = f"{'AB'[state.phase]} {'SLMGEYR'[state.interval]} {''.join('RYGF'[c] for c in colours)} {wait}"
            shown += [f"{now} {line}"] if line != last else []
            last = line
        assert [line for line in shown if int(line.split()[0]) <= int(expected[-1].split()[0])] == expected, (shown, expected)
        yield calls


def crossing(late=0, walk=10):
    """Two phases with a vehicle group, a pedestrian group and two detectors each, early cut-offs and an order."""
    groups = [(1, 0), (2, 3), (1, PEDESTRIAN), (2, PEDESTRIAN)]
    detectors = [(0, 6), (1, 6), (0, 5), (1, 1)]
    return build(10, [(late,) + OLD[1:]] * 2, groups, conflicts_of(groups), detectors, [(walk, 5, 7)] * 2, (12, 0), (1, 0))


def small_sites():
    return [junction(), junction_two(), turning_arrow(), three_phases(), crossing(), crossing(20)]


def changes():
    """Late starts that come and go with a change, the starting phase locked or not, its button pressed or not; each retiming before each
    step of a cycle."""
    for old, new in ((crossing(), crossing(20)), (crossing(20), crossing()), (crossing(), crossing(0, 30)), (crossing(), crossing())):
        for lock, press in ((2, 0), (2, 1 << 49), (0, 1 << 49), (8, 0)):
            for before in (1, 5, 9, 10, 11, 20, 29, 30, 31, 32, 40, 50, 60, 65, 70, 71, 72, 75, 80, 90, 91, 92, 93, 94):
                calls = Calls(old)
                for now in range(1, 131):
                    if now == before:
                        calls.retime(new)
                    calls.step((lock | press if now in (12, 70) else 0) | (8 if lock == 8 else 0), 4)
                yield calls


def orders_of_checks():
    """Each wrong of a retiming before and behind the others."""
    good, bad, other = junction(), put(junction(), 32, 29), junction()[:63] + b"\2" + junction()[64:]
    state = fresh(good, bytes(STATE_BYTES))[2]
    for personality in (good, bad, b""):
        aged, flagged = state[:2] + b"\0" + state[3:], state[:FLAG] + b"\2" + NO_TIMES
        for data in (state, state[1:], state + b"\0", aged, flagged, b"", bytes(STATE_BYTES)):
            calls = Calls(personality, data)
            for new in (good, bad, other, bad[:63] + b"\2" + bad[64:], b"", good[:-1], good + b"\0"):
                calls.retime(new)
            calls.step(4, 1)
            calls.step(0, 1)
            calls.step(0, 2)
            calls.fresh()
            yield calls


def editions():
    """The kind of the site section is no time setting, and each set of times is held to the limits of the first personality's edition: known
    without this model."""
    one, two = junction_two(kind=1), junction_two()
    for first, other, start, red in ((one, two, 10, 10), (two, one, 30, 15)):
        calls = Calls(first)
        for new, answer in ((first, (0, 0)), (other, (26, 0)), (put(other, 6, 40), (26, 0)), (put(two, 6, 29), (5, 6)),
                            (put(two, 34, 14), (5, 34)), (put(one, 6, 29), (0 if first == one else 26, 0)), (first, (0, 0))):
            assert calls.retime(new) == answer, (first, new)
        yield calls
        # Start red and the all-reds of A and B, in either set of times.
        for at, low in ((0, start), (12, red), (24, red)):
            for value in (9, 10, 14, 15, 29, 30, 150, 151):
                for times in (RULING, WAITING):
                    changed = Calls(first, put(calls.data, times + at, value))
                    assert (changed.step(0, 2)[0] == 0) == (low <= value <= 150), (at, value)
                    yield changed


def every_byte():
    """Each byte of a new personality and each byte of a state changed, at small sites."""
    for personality in small_sites():
        calls = Calls(personality)
        for at, old in enumerate(personality):
            for value in {old ^ 1, old ^ 2, old + 1 & 255, 0, 30, 255} - {old}:
                calls.retime(personality[:at] + bytes((value,)) + personality[at + 1:])
            if at % 20 == 0:
                calls.step()
        yield calls
    for personality in small_sites():
        new = retimed(random.Random(12), personality, "short")
        started = Calls(personality)
        for _ in range(25):
            started.step(site_of(personality).wired & 0b10)
        for data in (started.data, started.data[:FLAG] + b"\1" + times_of(new)):
            for at, old in enumerate(data):
                for value in (old ^ 1, old + 100 & 255):
                    calls = Calls(personality, data[:at] + bytes((value,)) + data[at + 1:])
                    calls.retime(new)
                    calls.step()
                    yield calls


def runs(rng, count, length):
    """Runs from the fresh state, and from other states, with retimings of every kind."""
    for index in range(count):
        personality = rng.choice(small_sites() + [largest()]) if rng.random() < 0.25 else quick_site(rng)
        site, often = site_of(personality), rng.choice((0.01, 0.05, 0.2))
        calls = Calls(personality, None if index % 3 else random_data(rng, personality))
        traffic = Traffic(rng, site)
        for _ in range(rng.randint(length // 2, length) if index % 3 else rng.randint(1, 12)):
            while rng.random() < often:
                calls.retime(second(rng, personality))
            groups = len(site.groups)
            calls.step(traffic.next(), rng.randrange(groups) if rng.random() < 0.01 else groups + rng.choice((0, 0, 3)))
        yield calls


def starts(rng, count):
    """A step in which a phase starts and times wait, from any state before it."""
    for _ in range(count):
        personality = quick_site(rng)
        ruling, waiting = (times_of(retimed(rng, personality)) for _ in range(2))
        site = site_of(with_times(personality, ruling))
        state = random_state(rng, site, (S, R))
        state.age = 2000
        calls = Calls(personality, put_together(state, ruling, waiting))
        calls.step(Traffic(rng, site).next())
        calls.step()
        yield calls


def damaged_states(rng, count):
    for _ in range(count):
        personality = quick_site(rng)
        data = random_data(rng, personality)
        if rng.random() < 0.15:
            data = data[:rng.randrange(STATE_BYTES)] if rng.random() < 0.5 else data + bytes(rng.randint(1, 40))
        else:
            data = damaged(rng, personality, data)
        calls = Calls(personality, data)
        calls.retime(rng.choice((retimed, retimed, elsewhere, refused))(rng, personality))
        calls.step(Traffic(rng, site_of(personality)).next())
        yield calls


# What the lists must have, and how often at least.
NEEDED = {
    10: [("retiming", found) for found in (0, 1, 2, 3, 4, 5, 6, 9, 10, 11, 12, 13, 26)] + [("step", found) for found in (0, 13, 14, 15)]
    + [("retiming with first kind", kind, found) for kind, found in ((1, 26), (8, 26), (8, 5))]
    + ["times of edition one alone", "change to equal times", "late start for none, locked", "late start for none, 20",
       "no late start for 20, locked", "walk begun in a change", "counts in start red before a change"],
    50: [("retimed in", letter) for letter in "SLMGEYR"] + [("change after", letter) for letter in "SR"]
    + [("retimed by edition of kind", kind) for kind in (1, 8)]
    + ["two in a row", "replaced", "equal to the first", "equal to those that rule", "demand carried"],
}


def main():
    out, *numbers = sys.argv[1:]
    if numbers:
        seed, lists = map(int, numbers)
        rng = random.Random(seed)
        parts = (runs(rng, lists, 400), starts(rng, lists), damaged_states(rng, lists))
    else:
        rng = random.Random(12)
        parts = (worked(), changes(), orders_of_checks(), editions(), every_byte(), runs(rng, 240, 300), starts(rng, 300),
                 damaged_states(rng, 1_500))
    with open(out, "wb") as file:
        for part in parts:
            for calls in part:
                file.write(calls.bytes())
    if numbers:
        print(", ".join(f"{what}: {count}" for what, count in sorted(Calls.seen.items(), key=str)))
    else:
        missing = {what: Calls.seen[what] for least, some in NEEDED.items() for what in some if Calls.seen[what] < least}
        assert not missing, missing


main()
