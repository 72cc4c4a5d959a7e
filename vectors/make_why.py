#!/usr/bin/env python3
"""Writes calls for the line that says why a phase holds. Of each list: the personality and a state buffer, both behind a two-byte length; the
number of calls (2 bytes); the calls. Of each call: how many bytes of the buffer change before it (2), and of each the place (2) and the
byte (1); the inputs (8) and the length of the line buffer (2). Then come the number (1) and the place or the length (4) that the call for
the length answers; those that the writing call answers; and the bytes that this one writes, behind a one-byte length. No call changes the
state.

Usage: make_why.py OUT [SEED LISTS]. Without a seed the same file comes out at every run. With one there are so many lists of random calls of
each kind, and nothing else."""
import random
import sys
from collections import Counter

from controller import FIRST, FIRST_BUTTON, G, IDLE, L, M, S, SECOND, WALK, Y, Controller, members_of
from draws import Traffic, damaged, put, random_data, random_state, refused, retimed, second
from model import PEDESTRIAN, build, conflicts_of, junction, largest, quick_ranges, random_site, three_phases
from retime import FLAG, RULING, STATE_BYTES, fresh, put_together, retime, site_of, step, taken_apart, times_of, with_times
from why import calls, reasons, why, why_length

ANY = range(7)
# Where a number becomes longer, and the ends of the gap and of the steps left.
GAPS = (0, 1, 2, 9, 10, 11, 99, 100)
LEFTS = (0, 1, 9, 10, 11, 99, 100, 101, 999, 1000, 1001, 1499, 1500)
MODES = (0, 1, 2, 4, 5, 6)


def little(value, size):
    return value.to_bytes(size, "little")


# ── Lists and what they show ──

class Asked:
    """A list of calls as it goes on."""
    seen = Counter()

    def __init__(self, personality, data):
        self.personality, self.first, self.data, self.calls = personality, data, data, []

    def ask(self, inputs=0, room=120, data=None):
        """Both calls on a buffer as long as the first one, by default the one before."""
        data = self.data if data is None else data
        changed = [(at, new) for at, (old, new) in enumerate(zip(self.data, data, strict=True)) if old != new]
        length, written = why_length(self.personality, data, inputs), why(self.personality, data, inputs, room)
        self.data = data
        self.watch(inputs, room, length, written)
        call = little(len(changed), 2) + b"".join(little(at, 2) + bytes((new,)) for at, new in changed)
        call += little(inputs, 8) + little(room, 2)
        call += b"".join(bytes((found,)) + little(rest, 4) for found, rest in (length, written[:2]))
        self.calls.append(call + bytes((len(written[2]),)) + written[2])
        return written

    def rooms(self, inputs=0):
        """The same call with buffers of several lengths."""
        _, length, _ = self.ask(inputs)
        for room in sorted({0, 1, length // 2, max(length - 1, 0), length, length + 1, length + 9, 300}):
            self.ask(inputs, room)

    def bytes(self):
        handed = b"".join(little(len(data), 2) + data for data in (self.personality, self.first))
        return handed + little(len(self.calls), 2) + b"".join(self.calls)

    def watch(self, inputs, room, length, written):
        """Counts what a call shows."""
        self.seen["length answers", length[0]] += 1
        self.seen["why answers", written[0]] += 1
        if length[0]:
            return
        state, _, waiting = taken_apart(self.personality, self.data)
        self.seen["in", "SLMGEYR"[state.interval]] += 1
        if state.interval != G:
            self.seen["no room outside running"] += room == 0
            return
        self.seen["room for the line", (room > length[1]) - (room < length[1])] += 1
        self.seen["one byte short"] += room == length[1] - 1
        told = reasons(state, inputs)
        self.seen["reasons", len(told)] += 1
        self.seen["walks", sum(reason.startswith("walk") for reason in told)] += 1
        for reason in told:
            word, _, count = reason.partition(" ")
            self.seen[word, len(count)] += 1
        self.watch_demands(state, inputs, told)
        self.seen["max before the count begins"] += state.maximum == 0
        self.seen["another maximum in the personality"] += self.maximum(state.phase) != state.site.phases[state.phase]["X"]
        self.seen["another maximum waits"] += waiting is not None and self.maximum(state.phase, waiting) != state.site.phases[state.phase]["X"]
        self.seen["first clearance told"] += any(stage == FIRST for stage, _ in state.stages)
        self.seen["second clearance not told"] += any(stage == SECOND for stage, _ in state.stages)

    def maximum(self, phase, times=None):
        """X of a phase by the personality's own times, or by others."""
        personality = self.personality if times is None else with_times(self.personality, times)
        return site_of(personality).phases[phase]["X"]

    def watch_demands(self, state, inputs, told):
        alone, own, site = "no other demand" in told, {state.phase}, state.site
        standing, called = state.kept - own, calls(site, inputs) - own
        self.seen["other demand stands"] += bool(standing)
        self.seen["own phase alone demanded"] += alone and state.kept == own
        self.seen["own phase called"] += alone and calls(site, inputs) == own
        occupied = [site.detectors[place] for place in members_of(inputs) if place < FIRST_BUTTON]
        for phase, mode in occupied:
            if phase != state.phase:
                # The only one occupied, and nothing else stands.
                self.seen["called by mode", mode] += bool(called) and not standing and len(occupied) == 1
                self.seen["not called by mode", mode] += alone
        pressed = {site.phase_of[k] for k in members_of(inputs >> FIRST_BUTTON)}
        self.seen["button of another phase pressed"] += alone and bool(pressed - own)


def running(site, phase=0, gap=0, left=0, locks=(), presses=(), stages=()):
    """A state in running."""
    state = Controller(site)
    state.phase, state.interval, state.gap, state.maximum = phase, G, gap, site.phases[phase]["X"] - left
    state.locks, state.presses = set(locks), set(presses)
    for k, stage in enumerate(stages):
        state.stages[k] = (stage, 1)
    state.kept = state.standing()
    assert state.valid()
    return state


def by_own_times(personality, state):
    return put_together(state, times_of(personality))


# ── Cases known without this model ──

def worked():
    """The junction of two phases: lines after some steps, and none in other intervals."""
    nobody = dict.fromkeys((1, 9, 10, 29), b"")
    resting = {**nobody, 30: b"A holds, no other demand, max 30", 31: b"A holds, no other demand, max 30"}
    called = {**nobody, 30: b"A holds, max 30", 31: b"", 60: b"", 70: b"", 71: b"", 91: b"B holds, no other demand, max 30"}
    held = {**nobody, 30: b"A holds, gap 5, max 30", 31: b"A holds, gap 5, max 29", 50: b"A holds, gap 5, max 10",
            51: b"A holds, gap 5, max 9", 59: b"A holds, gap 5, max 1", 60: b"", 100: b"", 120: b"B holds, max 30"}
    going = {30: b"A holds, no other demand, gap 5, max 30", 40: b"A holds, no other demand, gap 5, max 30",
             41: b"A holds, no other demand, gap 4, max 30", 44: b"A holds, no other demand, gap 1, max 30",
             45: b"A holds, no other demand, max 30"}
    personality = junction()
    for inputs, lines in ((lambda now: 0, resting), (lambda now: 2 * (now == 12), called), (lambda now: 1 | 2 * (now == 12), held),
                          (lambda now: now <= 40, going)):
        data = fresh(personality, bytes(STATE_BYTES))[2]
        asked = Asked(personality, data)
        for now in range(1, max(lines) + 1):
            _, _, data, _ = step(personality, data, int(inputs(now)), 2)
            if now in lines:
                expected = lines[now]
                assert asked.ask(int(inputs(now)), 64, data) == (0, len(expected), expected), (now, asked.data)
        yield asked


def everything():
    """The longest line, and the shortest."""
    personality = crossings()
    site = site_of(personality)
    longest = b"A holds, no other demand, gap 100, max 1500" + b"".join(b", walk %d" % k for k in range(1, 9))
    for state, expected in ((running(site, 0, 100, 1500, stages=[WALK, FIRST] * 4), longest), (running(site, 0, locks=[1]), b"A holds"),
                            (running(site, 1, presses=[7]), b"B holds"), (running(site, 1, 0, 7), b"B holds, no other demand, max 7")):
        asked = Asked(personality, by_own_times(personality, state))
        assert asked.ask(0, 300) == (0, len(expected), expected), expected
        asked.rooms()
        yield asked
    assert len(longest) == 107


# ── Numbers, movements, demands ──

def crossings():
    """Two phases with the highest times, the first with eight movements; a detector of each mode for either phase."""
    groups = [(1, 0), (2, 0)] + [(1, PEDESTRIAN)] * 8
    detectors = [(phase, mode) for mode in MODES for phase in (0, 1)]
    return build(150, [(200, 400, 1500, 100, 100, 150)] * 2, groups, conflicts_of(groups), detectors, [(400, 400, 400)] * 8)


def mixed():
    """Three phases, each with a movement and a detector of each mode, in an order of their own."""
    groups = [(1, 0), (2, 0), (4, 0), (1, PEDESTRIAN), (2, PEDESTRIAN), (4, PEDESTRIAN)]
    detectors = [(phase, mode) for phase in range(3) for mode in MODES]
    return build(10, [(0, 20, 30, 5, 30, 10)] * 3, groups, conflicts_of(groups), detectors, [(10, 5, 7)] * 3, order=(0, 2, 1))


def numbers():
    """Each width of each number, with and without the others."""
    personality = crossings()
    site = site_of(personality)
    asked = Asked(personality, by_own_times(personality, running(site)))
    for locks in ((), (1,)):
        for gap in GAPS:
            for left in LEFTS:
                asked.ask(data=by_own_times(personality, running(site, 0, gap, left, locks)))
    for gap in range(101):
        asked.ask(data=by_own_times(personality, running(site, 1, gap, 15 * gap)))
    yield asked


def movements():
    """Each set of movements in walk, or in the first clearance, the others in any stage that is not told."""
    personality, rng = crossings(), random.Random(13)
    site = site_of(personality)
    asked = Asked(personality, by_own_times(personality, running(site)))
    for members in range(256):
        stages = [rng.choice((WALK, FIRST) if members >> k & 1 else (IDLE, SECOND)) for k in range(8)]
        asked.ask(data=by_own_times(personality, running(site, 0, rng.choice(GAPS), rng.choice(LEFTS), rng.choice(((), (1,))), (), stages)))
    yield asked


def demands():
    """Each input bit alone, those of each mode, and all, whatever demands stand."""
    personality = mixed()
    site = site_of(personality)
    of_mode = [sum(1 << place for place, (_, found) in enumerate(site.detectors) if found == mode) for mode in MODES]
    sets = [0, site.wired, *of_mode, (1 << FIRST_BUTTON) - 1 & site.wired, 0b111 << FIRST_BUTTON, *(1 << bit for bit in range(64))]
    for phase in (0, 1):
        other = 2 - phase
        asked = Asked(personality, by_own_times(personality, running(site, phase)))
        for locks, presses in (((), ()), ((phase,), ()), ((), (phase,)), ((other,), ()), ((), (other,)), ((0, 1, 2), (0, 1, 2))):
            stages = [WALK if k == phase else IDLE for k in range(3)]
            data = by_own_times(personality, running(site, phase, 3, 20, locks, presses, stages))
            for inputs in sets:
                asked.ask(inputs, data=data)
        yield asked


def intervals():
    """Each interval: the same counts and movements tell a line in running alone."""
    rng = random.Random(14)
    for personality in (crossings(), mixed(), largest()):
        site = site_of(personality)
        for interval in ANY:
            asked = Asked(personality, by_own_times(personality, random_state(rng, site, (interval,))))
            for _ in range(3):
                asked.ask(data=by_own_times(personality, random_state(rng, site, (interval,))))
                asked.rooms()
            yield asked


def times():
    """The steps left go by the times that rule, not by those of the personality or those that wait."""
    personality, slow = junction(), put(put(junction(), 16, 1500), 28, 1500)
    middle = put(put(junction(), 16, 200), 28, 700)
    for ruling in (personality, slow, middle):
        for waiting in (None, personality, slow, middle):
            site = site_of(with_times(personality, times_of(ruling)))
            asked = None
            for phase in (0, 1):
                for count in (0, 1, 10, 30):
                    state = running(site, phase, 5, site.phases[phase]["X"] - count)
                    data = put_together(state, times_of(ruling), None if waiting is None else times_of(waiting))
                    asked = asked or Asked(personality, data)
                    asked.ask(data=data)
            yield asked


# ── Refusals ──

def orders_of_checks():
    """Each wrong before and behind the others."""
    good, bad = junction(), put(junction(), 32, 29)
    valid = by_own_times(good, running(site_of(good), 0, 5, 29))
    start = fresh(good, bytes(STATE_BYTES))[2]
    aged, flagged = put(valid, 2, 0), valid[:FLAG] + b"\2" + valid[FLAG + 1:]
    for personality in (good, bad, good[:-1], good + b"\0", b""):
        for data in (valid, start, valid[1:], valid + b"\0", aged, flagged, b"", bytes(STATE_BYTES), valid[:RULING], b"\xff" * STATE_BYTES):
            asked = Asked(personality, data)
            for inputs in (0, 4, 1 << 47, 1 << 48, 1 << 63):
                for room in (0, 20, 200):
                    asked.ask(inputs, room)
            yield asked


def every_byte():
    """Each byte of a state changed."""
    personality = mixed()
    state = running(site_of(personality), 1, 3, 20, (0,), (1,), [IDLE, FIRST, IDLE])
    data = put_together(state, times_of(personality), times_of(retimed(random.Random(15), personality, "short")))
    asked = Asked(personality, data)
    for at, old in enumerate(data):
        for value in {old ^ 1, old + 100 & 255}:
            asked.ask(0, 60, data[:at] + bytes((value,)) + data[at + 1:])
    yield asked


# ── Random calls ──

def any_site(rng):
    """A site of any size and either edition, most of them quick; or one of those above."""
    kind = rng.choice((1, 8))
    return rng.choice((random_site(rng, ranges=quick_ranges(kind), kind=kind), random_site(rng, kind=kind), crossings(), mixed()))


def room_of(rng, personality, data, inputs):
    """A room that most often has the line, and often just does not."""
    found, length = why_length(personality, data, inputs)
    length = 0 if found else length
    return rng.choice((120, 120, length, length, max(length - 1, 0), length + 1, rng.randrange(120)))


def runs(rng, count, length):
    """Runs from the fresh state, some of them retimed: the line after each step of a green, by the inputs of that step or by others."""
    for index in range(count):
        personality = (junction(), three_phases(), mixed())[index] if index < 3 else any_site(rng)
        site, often = site_of(personality), rng.choice((0, 0.01, 0.1))
        data = fresh(personality, bytes(STATE_BYTES))[2]
        asked, traffic = Asked(personality, data), Traffic(rng, site)
        for _ in range(rng.randint(length // 2, length)):
            if rng.random() < often:
                _, _, data = retime(personality, data, second(rng, personality))
            inputs = traffic.next()
            _, _, data, _ = step(personality, data, inputs, 32)
            if data[1] == G and rng.random() < 0.4 or rng.random() < 0.03:
                inputs = inputs if rng.random() < 0.8 else site.wired & rng.getrandbits(64)
                asked.ask(inputs, room_of(rng, personality, data, inputs), data)
        yield asked


def states(rng, count, calls_each):
    """Random valid states by any times, most of them in running, with inputs of every kind."""
    for _ in range(count):
        personality = any_site(rng)
        asked, traffic = None, Traffic(rng, site_of(personality))
        for _ in range(calls_each):
            ruling = times_of(rng.choice((personality, retimed(rng, personality))))
            waiting = rng.choice((None, ruling, times_of(retimed(rng, personality))))
            site = site_of(with_times(personality, ruling))
            state = random_state(rng, site, rng.choice(((G,), (G,), (G,), (S, L, M, Y))))
            if rng.random() < 0.5:
                state.locks, state.presses = set(), {k for k in state.presses if site.phase_of[k] == state.phase}
                state.kept = state.standing()
            data = put_together(state, ruling, waiting)
            asked, traffic.left = asked or Asked(personality, data), 0
            inputs = traffic.next()
            asked.ask(inputs, room_of(rng, personality, data, inputs), data)
        yield asked


def wrongs(rng, count):
    """States that are damaged, personalities that are refused, stray inputs, and short buffers."""
    for _ in range(count):
        personality = any_site(rng)
        data = random_data(rng, personality)
        if rng.random() < 0.6:
            data = damaged(rng, personality, data)
        if rng.random() < 0.1:
            data = data[:rng.randrange(STATE_BYTES)] if rng.random() < 0.5 else data + bytes(rng.randint(1, 40))
        wired = site_of(personality).wired
        asked = Asked(refused(rng, personality) if rng.random() < 0.2 else personality, data)
        for _ in range(2):
            asked.ask(rng.choice((0, wired & rng.getrandbits(64), 1 << rng.randrange(64))), rng.choice((0, rng.randrange(60), 120)))
        yield asked


# What the calls must have, and how often at least.
NEEDED = {
    10: [("why answers", found) for found in (0, 1, 5, 12, 13, 14, 15)] + [("in", letter) for letter in "SLMGEYR"]
    + [("reasons", count) for count in range(12)] + [("walks", count) for count in range(9)]
    + [("gap", width) for width in (1, 2, 3)] + [("max", width) for width in (1, 2, 3, 4)]
    + [("room for the line", sign) for sign in (-1, 0, 1)] + [("called by mode", mode) for mode in (1, 5)]
    + [("not called by mode", mode) for mode in (0, 2, 4, 6)]
    + ["no room outside running", "one byte short", "other demand stands", "own phase alone demanded", "own phase called",
       "button of another phase pressed", "max before the count begins", "another maximum in the personality", "another maximum waits",
       "first clearance told", "second clearance not told"],
}
# What must not be.
NEVER = [("length answers", 14), ("called by mode", 0), ("called by mode", 2), ("called by mode", 4), ("called by mode", 6),
         ("not called by mode", 1), ("not called by mode", 5)]


def main():
    out, *arguments = sys.argv[1:]
    if arguments:
        seed, lists = map(int, arguments)
        rng = random.Random(seed)
        parts = (runs(rng, lists, 600), states(rng, lists, 30), wrongs(rng, lists))
    else:
        rng = random.Random(16)
        parts = (worked(), everything(), numbers(), movements(), demands(), intervals(), times(), orders_of_checks(), every_byte(),
                 runs(rng, 24, 250), states(rng, 60, 6), wrongs(rng, 120))
    with open(out, "wb") as file:
        for part in parts:
            for asked in part:
                file.write(asked.bytes())
    seen = Asked.seen
    if arguments:
        print(", ".join(f"{what}: {count}" for what, count in sorted(seen.items(), key=str)))
    else:
        missing = {what: seen[what] for least, some in NEEDED.items() for what in some if seen[what] < least}
        assert not missing, missing
    assert not any(seen[what] for what in NEVER), seen


main()
