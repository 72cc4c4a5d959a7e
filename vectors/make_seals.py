#!/usr/bin/env python3
"""Writes lists of calls that seal states, resume them and ask for the number of groups. Of each list: the personality, a state and a sealed
record, each behind a two-byte length; the number of calls (2 bytes); the calls. Of each call: what it is (1), and what else it gets: 0 the
number of groups, nothing; 1 a sealing, the state that it gets and the length of the buffer for the record (2); 2 a resuming, the record that it
gets and the length of the state buffer (2). A state or a record is given by its difference from that of the list: its length (2), to which
that one is cut or filled with zeros; how many bytes differ then (2); and of each the place (2) and the byte (1). Then come the number (1)
and the place or the number of groups (4), and the bytes that are written, behind a two-byte length: a whole record, a whole state, or none.

Usage: make_seals.py OUT [SEED LISTS]. Without a seed the same file comes out at every run. With one there are so many lists of random
calls of each kind, and nothing else."""
import random
import sys
from collections import Counter
from zlib import crc32

from draws import Traffic, damaged, elsewhere, other_edition, put, random_data, refused, retimed, second
from model import junction, junction_two, largest, random_site, three_phases, turning_arrow
from retime import FLAG, NO_TIMES, STATE_BYTES, fresh, retime, site_of, step, taken_apart, verdict_of
from seal import CHECK, NAME, SEALED_BYTES, STATE, VERSION, closed, groups, little, name_of, record, resume, seal


# ── Lists and what they show ──

class Calls:
    """A list of calls as it goes on."""
    seen = Counter()

    def __init__(self, personality, data, sealed=None):
        self.personality, self.data, self.calls = personality, data, []
        self.sealed = record(personality, data) if sealed is None else sealed

    def add(self, call, found, rest, written=b""):
        self.calls.append(call + bytes((found,)) + little(rest, 4) + little(len(written), 2) + written)
        return found, rest

    def groups(self):
        found, rest = groups(self.personality)
        self.seen["groups", found] += 1
        return self.add(b"\0", found, rest)

    def seal(self, data=None, room=SEALED_BYTES):
        data = self.data if data is None else data
        found, place, written = seal(self.personality, data, room)
        self.seen["seal", found] += 1
        self.seen["sealed with times waiting"] += found == 0 and data[FLAG] == 1
        return self.add(b"\1" + difference(self.data, data) + little(room, 2), found, place, written)

    def resume(self, sealed=None, room=STATE_BYTES):
        sealed = self.sealed if sealed is None else sealed
        found, place, written = resume(self.personality, sealed, room)
        self.seen["resume", found] += 1
        self.watch(sealed, room, found)
        return self.add(b"\2" + difference(self.sealed, sealed) + little(room, 2), found, place, written)

    def both(self, data):
        """A state sealed, and its record resumed."""
        self.seal(data)
        self.resume(record(self.personality, data))

    def watch(self, sealed, room, found):
        whole = len(sealed) == SEALED_BYTES and closed(sealed[:CHECK]) == sealed
        self.seen["other version, else whole"] += found == 27 and whole
        self.seen["other version, damaged too"] += found == 27 and not whole
        self.seen["damaged, of another personality"] += found == 28 and sealed[NAME:STATE] != name_of(self.personality)
        if found == 29:
            self.seen["length alone is another"] += sealed[NAME + 2:STATE] == name_of(self.personality)[2:]
            self.seen["check value alone is another"] += sealed[NAME:NAME + 2] == name_of(self.personality)[:2]
            valid = taken_apart(self.personality, sealed[STATE:CHECK]) is not None
            self.seen["another personality, state", "valid here" if valid else "not valid here"] += 1
        self.seen["whole record, state not valid"] += found == 13 and room == STATE_BYTES

    def bytes(self):
        handed = b"".join(little(len(data), 2) + data for data in (self.personality, self.data, self.sealed))
        return handed + little(len(self.calls), 2) + b"".join(self.calls)


def difference(base, data):
    """How the data differ from the base, cut or filled with zeros to their length."""
    filled = base[:len(data)].ljust(len(data), b"\0")
    changed = [(at, new) for at, (old, new) in enumerate(zip(filled, data)) if old != new] if filled != data else []
    return little(len(data), 2) + little(len(changed), 2) + b"".join(little(at, 2) + bytes((new,)) for at, new in changed)


def with_byte(data, at, value):
    return data[:at] + bytes((value,)) + data[at + 1:]


def remade(sealed):
    """The record with its check value made right."""
    return closed(sealed[:CHECK])


# ── Sites and states ──

def sites():
    return [junction(), junction_two(), turning_arrow(), three_phases(), largest()]


def any_site(rng):
    """A site of any size and either edition; most have short times, so that many phases start."""
    personality = random_site(rng, kind=rng.choice((1, 8)))
    return retimed(rng, personality, "short") if rng.random() < 0.7 else personality


def started(personality, steps, waiting=True):
    """A state of a run, in which times wait or none do."""
    data = fresh(personality, bytes(STATE_BYTES))[2]
    for _ in range(steps):
        data = step(personality, data, site_of(personality).wired & 0b10, 32)[2]
    return retime(personality, data, retimed(random.Random(steps), personality, "short"))[2] if waiting else data


# ── Cases known without this model ──

def worked():
    """The record of the junction's fresh state, part by part; the check value that is published for it."""
    assert crc32(b"123456789") == 0xCBF43926
    calls = Calls(junction(), fresh(junction(), bytes(STATE_BYTES))[2])
    assert calls.groups() == (0, 2) and len(calls.sealed) == 347 and calls.sealed[:3] == b"\6\x44\0"
    assert calls.seal() == (0, 0) and calls.resume() == (0, 0)
    for sealed, expected in ((with_byte(calls.sealed, 0, 5), 27), (b"\5", 27), (b"", 28), (b"\6", 28), (calls.sealed[:-1], 28),
                             (calls.sealed + b"\0", 28), (with_byte(calls.sealed, 100, 9), 28), (record(junction_two(), calls.data), 29),
                             (record(junction(), with_byte(calls.data, 0, 2)), 13)):
        assert calls.resume(sealed) == (expected, 0), expected
    yield calls
    for personality, found in ((largest(), (0, 32)), (turning_arrow(), (0, 3)), (b"", (1, 0)), (put(junction(), 20, 29), (5, 20))):
        calls = Calls(personality, bytes(STATE_BYTES))
        assert calls.groups() == found
        yield calls


def orders_of_checks():
    """Each wrong before and behind the others."""
    good, other = junction(), three_phases()
    data = started(good, 40)
    aged, flagged = put(data, 2, 0), with_byte(data, FLAG, 2)
    states = (data, aged, flagged, data[1:], data + b"\0", b"", bytes(STATE_BYTES))
    for personality in (good, put(good, 20, 29), good[:-1], good + b"\0", b""):
        calls = Calls(personality, data)
        for state in states:
            for room in (SEALED_BYTES, SEALED_BYTES - 1, SEALED_BYTES + 1, STATE_BYTES, 0):
                calls.seal(state, room)
        for version in (VERSION, VERSION - 1, VERSION + 1, 0, 255):
            for named in (personality, other, good):
                for state in (data, aged, flagged):
                    sealed = record(named, state, version)
                    for made in (sealed, with_byte(sealed, CHECK, sealed[CHECK] ^ 1), sealed[:-1], sealed + b"\0"):
                        for room in (STATE_BYTES, STATE_BYTES - 1, STATE_BYTES + 1, 0):
                            calls.resume(made, room)
        yield calls


def lengths():
    """Each length of a record from 0 to 347 and more, with each version before it; each length of the buffers."""
    for personality in (junction(), largest()):
        for sealed in (record(personality, started(personality, 40), version) for version in (VERSION, VERSION - 1)):
            calls = Calls(personality, sealed[STATE:CHECK], sealed)
            for length in [*range(SEALED_BYTES + 40), 2 * SEALED_BYTES, 1_000]:
                calls.resume(sealed[:length].ljust(length, b"\0"))
            for more in range(1, SEALED_BYTES, 20):
                calls.resume(sealed + sealed[:more])
            yield calls
    calls = Calls(junction(), started(junction(), 25))
    for room in [*range(SEALED_BYTES + 40), 2 * SEALED_BYTES, 1_000]:
        calls.seal(room=room)
        calls.resume(room=room)
    yield calls


def every_byte():
    """Each byte of a record altered, with the check value as it was and made right."""
    for personality in (junction(), three_phases(), largest()):
        for waiting in (False, True):
            calls = Calls(personality, started(personality, 45, waiting))
            for at, old in enumerate(calls.sealed):
                for value in {old ^ 1, old ^ 128, old + 1 & 255, 0, 255} - {old}:
                    altered = with_byte(calls.sealed, at, value)
                    calls.resume(altered)
                    calls.resume(remade(altered))
            for at, old in enumerate(calls.data):
                calls.seal(with_byte(calls.data, at, old ^ 1))
            yield calls


def versions():
    """Each version, alone and with other damage."""
    for personality in (junction(), largest()):
        data = started(personality, 45)
        calls = Calls(personality, data)
        for version in range(256):
            sealed = record(personality, data, version)
            for made in (sealed, with_byte(calls.sealed, 0, version), sealed[:1], sealed[:200], sealed + b"\0",
                         with_byte(sealed, 9, sealed[9] ^ 1), record(junction_two(), data, version)):
                calls.resume(made)
        yield calls


def personalities():
    """Each byte of a personality altered, each length of it: most are refused, and the record is that of the unaltered one."""
    for personality in (turning_arrow(), three_phases()):
        data = started(personality, 30)
        altered = [with_byte(personality, at, old ^ bit) for at, old in enumerate(personality) for bit in (1, 2, 4, 128)]
        for other in altered + [personality[:length] for length in range(len(personality))] + [personality + b"\0"]:
            calls = Calls(other, data, record(personality, data))
            calls.groups()
            calls.seal()
            calls.resume()
            calls.resume(record(other, data))
            yield calls


# ── Random calls ──

def burst(rng, sealed):
    """Up to four neighbouring bytes altered, or up to 32 neighbouring bits."""
    if rng.random() < 0.5:
        size = rng.randint(1, 4)
        at = rng.randint(0, len(sealed) - size)
        return sealed[:at] + rng.randbytes(size) + sealed[at + size:]
    first = rng.randrange(8 * len(sealed) - 32)
    bits = int.from_bytes(sealed, "little") ^ (rng.getrandbits(32) | 1) << first
    return little(bits, len(sealed))


def scattered(rng, sealed):
    """Several bytes altered, anywhere."""
    made = bytearray(sealed)
    for _ in range(rng.randint(2, 12)):
        made[rng.randrange(len(made))] = rng.randrange(256)
    return bytes(made)


def torn(rng, old, new):
    """A mixture of two records: blocks of one size, each of the old or of the new, or the new to some place and the old behind it."""
    if rng.random() < 0.4:
        at = rng.randint(0, len(new))
        return new[:at] + old[at:]
    size = rng.choice((1, 4, 16, 32, 64, 128))
    return b"".join(rng.choice((old, new))[at:at + size] for at in range(0, len(new), size))


def runs(rng, count, length):
    """Runs with retimings: states sealed and resumed, and damaged records of each state and of it and the next one."""
    for index in range(count):
        personality = (sites() + [any_site(rng)])[min(index, 5)]
        data, often = fresh(personality, bytes(STATE_BYTES))[2], rng.choice((0, 0.02, 0.1))
        calls, traffic = Calls(personality, data), Traffic(rng, site_of(personality))
        calls.groups()
        for _ in range(length):
            if rng.random() < often:
                data = retime(personality, data, second(rng, personality))[2]
            _, _, after, _ = step(personality, data, traffic.next(), 32)
            if rng.random() < 0.3:
                calls.both(after)
                old, new = record(personality, data), record(personality, after)
                for made in (torn(rng, old, new), burst(rng, new), scattered(rng, new)):
                    calls.resume(made)
            data = after
        yield calls


def states(rng, count):
    """Random states, valid and not, sealed; and whole records of them, resumed."""
    for _ in range(count):
        personality = any_site(rng)
        calls = Calls(personality, random_data(rng, personality))
        for _ in range(6):
            valid = random_data(rng, personality)
            wrong = damaged(rng, personality, valid)
            for data in (valid, wrong):
                calls.both(data)
        calls.both(calls.data[:FLAG] + b"\0" + NO_TIMES)
        yield calls


def others(rng, count):
    """Records of another personality: of the same length with some bytes changed, of another length, and with one of both in its name; the state
    may be valid here too."""
    for _ in range(count):
        personality = any_site(rng)
        data = random_data(rng, personality)
        calls = Calls(personality, data)
        same_length = [other for other in (elsewhere(rng, personality) for _ in range(6)) if len(other) == len(personality)]
        for other in [retimed(rng, personality), retimed(rng, personality), *same_length, elsewhere(rng, personality), any_site(rng),
                      other_edition(rng, personality), refused(rng, personality), b""]:
            calls.resume(record(other, data))
            if verdict_of(other) == (0, 0):
                calls.resume(record(other, random_data(rng, other)))
        length, check = name_of(personality)[:2], name_of(personality)[2:]
        for name in (little(rng.randrange(65_536), 2) + check, little(len(personality) + 256, 2) + check, length[::-1] + check,
                     length + rng.randbytes(4), length + check[::-1], length + bytes(4), length + little(crc32(personality) ^ 0xFFFFFFFF, 4)):
            calls.resume(closed(bytes((VERSION,)) + name + data))
        yield calls


def wrongs(rng, count):
    """Personalities that are refused, states and records that are damaged, buffers of other lengths, and several of these at once."""
    for _ in range(count):
        personality = any_site(rng)
        data = random_data(rng, personality)
        asked = refused(rng, personality) if rng.random() < 0.4 else personality
        calls = Calls(asked, data, record(personality, data))
        calls.groups()
        for _ in range(4):
            state = damaged(rng, personality, data) if rng.random() < 0.4 else data
            if rng.random() < 0.2:
                state = rng.choice((state[:rng.randrange(STATE_BYTES)], state + rng.randbytes(9)))
            calls.seal(state, rng.choice((SEALED_BYTES, SEALED_BYTES, rng.randrange(700))))
            named = rng.choice((asked, asked, elsewhere(rng, personality)))
            sealed = record(named, state, rng.choice((VERSION, VERSION, rng.randrange(256))))
            wrong = (burst(rng, sealed), scattered(rng, sealed), sealed[:rng.randrange(len(sealed))], rng.randbytes(SEALED_BYTES))
            calls.resume(rng.choice((sealed, sealed, *wrong)), rng.choice((STATE_BYTES, STATE_BYTES, rng.randrange(700))))
        yield calls


# What the calls must have, and how often at least.
NEEDED = {
    1: [(call, found) for call in ("groups", "seal", "resume") for found in (1, 2, 3, 4, 5, 6, 8, 9, 10, 11, 12, 17, 18, 21)],
    50: [("groups", 0)] + [("seal", found) for found in (0, 13, 14)] + [("resume", found) for found in (0, 13, 27, 28, 29)]
    + ["sealed with times waiting", "other version, else whole", "other version, damaged too", "damaged, of another personality",
       "length alone is another", "check value alone is another", ("another personality, state", "valid here"),
       ("another personality, state", "not valid here"), "whole record, state not valid"],
}


def main():
    out, *arguments = sys.argv[1:]
    if arguments:
        seed, lists = map(int, arguments)
        rng = random.Random(seed)
        parts = (runs(rng, lists, 100), states(rng, lists), others(rng, lists), wrongs(rng, lists))
    else:
        rng = random.Random(21)
        parts = (worked(), orders_of_checks(), lengths(), every_byte(), versions(), personalities(), runs(rng, 24, 150), states(rng, 60),
                 others(rng, 60), wrongs(rng, 200))
    with open(out, "wb") as file:
        for part in parts:
            for calls in part:
                file.write(calls.bytes())
    seen = Calls.seen
    if arguments:
        print(", ".join(f"{what}: {count}" for what, count in sorted(seen.items(), key=str)))
    else:
        missing = {what: seen[what] for least, some in NEEDED.items() for what in some if seen[what] < least}
        assert not missing, missing


main()
