#!/usr/bin/env python3
"""Every way in which a trace can end: each program must print the same, with the last line that is stated here.

    endings.py PROGRAM PROGRAM ..

Each program reads its standard input as the trace program does. The exit status is 0 only where all agree in every case."""
import subprocess
import sys
import time
from pathlib import Path
from typing import NamedTuple

HERE = Path(__file__).resolve().parent
MOST_STEPS = 36000
HEADER = "step phase interval groups"
CUT = "refused 16 0"
STRAY = "refused 15 0"

# The junction of two phases: detectors 0 and 1, no button; nothing in it is wrong until it is changed.
JUNCTION = (HERE / "two_phases" / "personality.bin").read_bytes()
LARGEST = (HERE / "largest" / "personality.bin").read_bytes()
YELLOW_OF_A = 20


class Case(NamedTuple):
    name: str
    data: bytes
    lines: int
    last: str


# ── Inputs ──

def little(value, size):
    return value.to_bytes(size, "little")


def stdin(personality, records):
    return little(len(personality), 2) + personality + b"".join(little(record, 8) for record in records)


def refused_personality():
    """Yellow of A below its limit: 5 at 20."""
    return JUNCTION[:YELLOW_OF_A] + little(29, 2) + JUNCTION[YELLOW_OF_A + 2:]


# ── Cases ──

def cuts():
    """An input of three steps, cut before each of its bytes: in the length, in the personality and in each step record."""
    whole = stdin(JUNCTION, [0, 0, 0])
    first = 2 + len(JUNCTION)
    for size in range(len(whole)):
        steps, rest = divmod(max(size - first, 0), 8)
        if size < first:
            yield Case(f"cut to {size} bytes", whole[:size], 1, CUT)
        elif rest:
            yield Case(f"cut to {size} bytes", whole[:size], steps + 2, CUT)
        else:
            yield Case(f"ends at {size} bytes", whole[:size], steps + 1, f"{steps} A S RR" if steps else HEADER)


def personalities():
    """The personality's own refusal: no header, and nothing of the steps behind it counts. A cut comes before it."""
    wrong = refused_personality()
    yield Case("refused personality", stdin(wrong, []), 1, "refused 5 20")
    yield Case("refused personality, steps behind it", stdin(wrong, [0, 4, 0]), 1, "refused 5 20")
    yield Case("refused personality, cut record behind it", stdin(wrong, [0]) + b"\0\0\0", 1, "refused 5 20")
    yield Case("refused personality, cut", stdin(wrong, [])[:-1], 1, CUT)
    yield Case("personality of no bytes", stdin(b"", [0]), 1, "refused 1 0")
    yield Case("longest personality", stdin(JUNCTION.ljust(65535, b"\0"), [0]), 1, "refused 12 68")
    yield Case("longest personality, cut", stdin(JUNCTION.ljust(65535, b"\0"), [])[:-1], 1, CUT)


def strays():
    """An input bit without a detector or button: 15 at its step, which ends the trace."""
    for bit in (2, 47, 48, 55, 56, 63):
        yield Case(f"bit {bit} in step 4", stdin(JUNCTION, [0, 1, 2, 1 << bit, 0, 0]), 5, STRAY)
    yield Case("stray bit in step 1", stdin(JUNCTION, [4]), 2, STRAY)
    yield Case("stray bit, cut record behind it", stdin(JUNCTION, [0, 4]) + b"\0", 3, STRAY)
    yield Case("cut record, which would be stray", stdin(JUNCTION, [0]) + b"\xff" * 7, 3, CUT)
    yield Case("stray bit in the largest site", stdin(LARGEST, [0] * 99 + [1 << 56]), 101, STRAY)


def hours():
    """After the last step of an hour the rest of the input is of no account."""
    hour, last = [2] * MOST_STEPS, f"{MOST_STEPS} B G RG"
    full = stdin(JUNCTION, hour)
    yield Case("an hour", full, MOST_STEPS + 1, last)
    yield Case("an hour and a step", full + little(2, 8), MOST_STEPS + 1, last)
    yield Case("an hour and many steps", full + little(1, 8) * 9000, MOST_STEPS + 1, last)
    yield Case("an hour and a stray bit", full + little(4, 8), MOST_STEPS + 1, last)
    yield Case("an hour and a cut record", full + b"\0\0\0", MOST_STEPS + 1, last)
    yield Case("an hour, steps and a cut record", full + little(0, 8) * 5 + b"\0", MOST_STEPS + 1, last)
    yield Case("an hour less one byte", full[:-1], MOST_STEPS + 1, CUT)
    yield Case("stray bit in the last step", stdin(JUNCTION, hour[:-1] + [4]), MOST_STEPS + 1, STRAY)
    yield Case("an hour of the largest site", stdin(LARGEST, [0] * MOST_STEPS) + b"\0", MOST_STEPS + 1,
               f"{MOST_STEPS} A G GGRRRRRRRRRRRRGGRRGRGGRRRRRRRRRR")


# ── Running ──

def text_of(program, data):
    """What a program prints; none where it fails or writes to its error output."""
    done = subprocess.run([program], input=data, capture_output=True, check=False)
    return done.stdout if done.returncode == 0 and not done.stderr else None


def text_in_pieces(program, data, size):
    """The same, its input handed over in small pieces with pauses between."""
    with subprocess.Popen([program], stdin=subprocess.PIPE, stdout=subprocess.PIPE) as running:
        for at in range(0, len(data), size):
            running.stdin.write(data[at:at + size])
            running.stdin.flush()
            time.sleep(0.001)
        return running.communicate()[0]


def ending_holds(case, text):
    lines = (text or b"").decode().split("\n")
    return len(lines) == case.lines + 1 and lines[-2:] == [case.last, ""]


def agree(case, texts):
    """Whether all have printed the same, with the ending stated; tells what has not."""
    if len(set(texts)) == 1 and ending_holds(case, texts[0]):
        return True
    ends = [(text or b"nothing, or an error")[-80:] for text in texts]
    print(f"{case.name}: expected {case.lines} lines, the last {case.last!r}; the programs end with {ends}")
    return False


def main(programs):
    if len(programs) < 2:
        print(__doc__)
        return 2
    cases = [*cuts(), *personalities(), *strays(), *hours()]
    wrong = sum(not agree(case, [text_of(program, case.data) for program in programs]) for case in cases)
    pieces = Case("in pieces", stdin(JUNCTION, [0, 0, 4]), 4, STRAY)
    wrong += sum(not agree(pieces, [text_in_pieces(program, pieces.data, size) for program in programs])
                 for size in (1, 3, 7))
    print(f"{len(cases) + 3} endings, {wrong} wrong")
    return 1 if wrong else 0


if __name__ == "__main__":
    sys.exit(main(sys.argv[1:]))
