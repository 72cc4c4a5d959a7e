"""Writes damaged copies of a recording (README.md), to try the players with:

    python3 targets/replay/damage.py RECORDING FOLDER SEED

The folder gets one file for each kind of damage, and a file `expected`: a line for each damaged copy with its name, the exit status of a
player, and texts that it prints. Recordings with a byte changed, cut or added must be refused before a call is made. In the others the
check value is made right again, so that the players must find the difference itself.
"""

import random
import struct
import sys
import zlib
from pathlib import Path

HEADER = 32
FIELDS = {"magic": 0, "format": 8, "arena": 12, "calls": 16, "length": 24}
FILL, PUT, FIRST_CALL = 0, 1, 2


class Reader:
    """Takes a recording apart."""

    def __init__(self, recording):
        self.bytes, self.at = recording, HEADER

    def take(self, count):
        self.at += count
        return self.bytes[self.at - count:self.at]

    def byte(self):
        return self.take(1)[0]

    def number(self):
        """Seven bits a byte, the lowest first; the last byte is below 128."""
        number = shift = 0
        while True:
            byte = self.byte()
            number |= (byte & 127) << shift
            shift += 7
            if byte < 128:
                return number

    def text(self):
        return self.take(self.byte()).decode()

    def calls(self):
        """Each call: its number from 1, its name, where its answer begins and ends; the sum of the arena has the four bytes behind."""
        table = [(self.text(), self.text()) for _ in range(self.byte())]
        count = 0
        while self.at < len(self.bytes) - 4:
            kind = self.byte()
            if kind == FILL:
                self.byte()
            elif kind == PUT:
                self.number()
                self.take(self.number())
            else:
                name, letters = table[kind - FIRST_CALL]
                for _ in letters:
                    self.number()
                begin = self.at
                self.number()
                end = self.at
                self.take(4)
                count += 1
                yield count, name, begin, end
        assert self.at == len(self.bytes) - 4, "the recording ends inside an entry"


def encoded(number):
    groups = [number & 127]
    while number := number >> 7:
        groups[-1] |= 128
        groups.append(number & 127)
    return bytes(groups)


def made_whole(recording):
    """The recording with the length and the check value that its bytes have."""
    whole = bytearray(recording[:-4])
    struct.pack_into("<Q", whole, FIELDS["length"], len(whole) - HEADER)
    return bytes(whole) + struct.pack("<I", zlib.crc32(whole))


def flipped(recording, place, bit):
    return recording[:place] + bytes([recording[place] ^ 1 << bit]) + recording[place + 1:]


def damaged_bytes(recording, rng):
    """Copies that the check value gives away: name and bytes."""
    length = len(recording)
    places = {name: place for name, place in FIELDS.items()}
    places |= {"table": HEADER + 3, "last": length - 1, "check": length - 4, "before-check": length - 5}
    places |= {f"any-{i}": rng.randrange(length) for i in range(6)}
    for name, place in places.items():
        yield f"flipped-{name}", flipped(recording, place, rng.randrange(8))
    yield "cut-last", recording[:-1]
    yield "cut-half", recording[:length // 2]
    yield "cut-header", recording[:HEADER - 1]
    yield "empty", b""
    yield "longer", recording + b"\0"


def altered(recording, chosen, alter):
    """The recording with the chosen calls altered, its check value made right again."""
    parts, at = [], 0
    for call in chosen:
        begin, end, new = alter(call)
        parts += [recording[at:begin], new]
        at = end
    return made_whole(b"".join(parts) + recording[at:])


def one_of_each(recording, rng):
    """One call of each name, in the order of the recording."""
    by_name = {}
    for call in Reader(recording).calls():
        by_name.setdefault(call[1], []).append(call)
    return sorted(rng.choice(calls) for calls in by_name.values())


def altered_calls(recording, rng):
    """Copies in which answers or sums are others: name, bytes, what the players print, and how many calls differ."""
    calls = one_of_each(recording, rng)

    def other_answer(call):
        _, _, begin, end = call
        reader = Reader(recording)
        reader.at = begin
        return begin, end, encoded(reader.number() ^ 1 << rng.randrange(64))

    def other_sum(call):
        end = call[3]
        return end, end + 4, flipped(recording[end:end + 4], rng.randrange(4), rng.randrange(8))

    for name, alter, said in (("answers", other_answer, "answer expected"), ("sums", other_sum, "the answer agrees; sum")):
        count, first = calls[0][:2]
        expected = f"call {count} ({first}): {said}"
        yield f"other-{name}", altered(recording, calls, alter), expected, len(calls)
        last = calls[-1]
        yield f"other-{name}-last", altered(recording, [last], alter), f"call {last[0]} ({last[1]}): {said}", 1


def other_counts(recording):
    """Copies with another number of calls in the header: name and bytes."""
    count, = struct.unpack_from("<Q", recording, FIELDS["calls"])
    for name, other in ("fewer", count - 1), ("more", count + 1):
        changed = bytearray(recording)
        struct.pack_into("<Q", changed, FIELDS["calls"], other)
        yield f"{name}-calls", made_whole(bytes(changed))


def main(recording, folder, seed):
    recording, folder, rng = Path(recording).read_bytes(), Path(folder), random.Random(int(seed))
    assert made_whole(recording) == recording, "the recording is damaged already"
    lines = []

    def write(name, copy, *expected):
        (folder / name).write_bytes(copy)
        lines.append("\t".join((name, *expected)) + "\n")

    for name, copy in damaged_bytes(recording, rng):
        write(name, copy, "2", "the recording is not whole", "0 calls replayed, 0 differed")
    for name, copy, text, count in altered_calls(recording, rng):
        write(name, copy, "1", text, f" calls replayed, {count} differed")
    for name, copy in other_counts(recording):
        write(name, copy, "2", "the recording is not whole")
    (folder / "expected").write_text("".join(lines))


if __name__ == "__main__":
    if len(sys.argv) != 4:
        sys.exit(__doc__)
    main(*sys.argv[1:])
