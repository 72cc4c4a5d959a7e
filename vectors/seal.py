"""Sealed records, which keep a state through the time without power, and the number of groups: written from the words of the interface in
Python and independent of the proved code. The check value is the one of zlib."""
from zlib import crc32

from retime import STATE_BYTES, site_of, taken_apart, verdict_of

VERSION = 6
# In a record: the version, the length of the personality (2 bytes), its check value (4), the state, the check value of all before it (4).
NAME, STATE = 1, 7
CHECK = STATE + STATE_BYTES
SEALED_BYTES = CHECK + 4


def little(value, size):
    return value.to_bytes(size, "little")


def name_of(personality):
    """What a record has of its personality."""
    return little(len(personality), 2) + little(crc32(personality), 4)


def closed(body):
    """The bytes with their check value behind them."""
    return body + little(crc32(body), 4)


def record(personality, data, version=VERSION):
    """The record of any bytes as a state."""
    return closed(bytes((version,)) + name_of(personality) + data)


def fault_of(personality, sealed):
    """The number of what is wrong with a record for an accepted personality, or 0."""
    if sealed and sealed[0] != VERSION:
        return 27
    if len(sealed) != SEALED_BYTES or sealed != closed(sealed[:CHECK]):
        return 28
    if sealed[NAME:STATE] != name_of(personality):
        return 29
    return 0 if taken_apart(personality, sealed[STATE:CHECK]) else 13


# ── Calls ──

def groups(personality):
    """Number, and the place or the number of groups."""
    found, place = verdict_of(personality)
    return (found, place) if found else (0, len(site_of(personality).groups))


def seal(personality, data, room):
    """Number, place, and the bytes that are written to a buffer with this room."""
    found, place = verdict_of(personality)
    if found:
        return found, place, b""
    if taken_apart(personality, data) is None:
        return 13, 0, b""
    if room != SEALED_BYTES:
        return 14, 0, b""
    return 0, 0, record(personality, data)


def resume(personality, sealed, room):
    """Number, place, and the bytes that are written to a state buffer with this room."""
    found, place = verdict_of(personality)
    if found:
        return found, place, b""
    found = fault_of(personality, sealed) if room == STATE_BYTES else 13
    return found, 0, b"" if found else sealed[STATE:CHECK]
