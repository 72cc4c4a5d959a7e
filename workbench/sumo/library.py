"""The proved library through ctypes: a controller of one site, stepped by 0.1 s."""

import ctypes
import pathlib
import subprocess

STATE_BYTES = 336
MOST_GROUPS = 32
VERSION = 6
FIRST_BUTTON = 48


def load(root, folder):
    """The calls of the static library, as a shared object in a folder."""
    archive = pathlib.Path(root, "target/staticlib/libwillowera.a")
    if not archive.exists():
        raise SystemExit(f"{archive} is missing: run tools/library.sh first")
    shared = pathlib.Path(folder, "libwillowera.so")
    whole = ["-Wl,--whole-archive", archive, "-Wl,--no-whole-archive"]
    subprocess.run(["cc", "-shared", "-o", shared, *whole], check=True)
    calls = ctypes.CDLL(str(shared))
    length, data = ctypes.c_uint64, ctypes.c_char_p
    calls.willowera_fresh.argtypes = [data, length, data, length]
    calls.willowera_step.argtypes = [data, length, data, length, length, data, length]
    calls.willowera_wait_bound.argtypes = [data, length]
    for call in (calls.willowera_fresh, calls.willowera_step, calls.willowera_wait_bound):
        call.restype = ctypes.c_uint64
    if calls.willowera_version() != VERSION:
        raise SystemExit(f"{archive} has another version of the interface than {VERSION}")
    return calls


def result(answer):
    """The result of an accepted call."""
    number, above = answer & 0xFF, answer >> 8
    if number:
        raise SystemExit(f"the library refuses with {number} at {above}")
    return above


class Controller:
    """A site that runs from the fresh state."""

    def __init__(self, calls, personality):
        self.calls = calls
        self.personality = personality
        self.state = ctypes.create_string_buffer(STATE_BYTES)
        self.buffer = ctypes.create_string_buffer(MOST_GROUPS)
        result(calls.willowera_fresh(personality, len(personality), self.state, STATE_BYTES))
        self.bound = result(calls.willowera_wait_bound(personality, len(personality)))

    def step(self, inputs):
        """One step with these input bits: the colours, one for each group."""
        sizes = len(self.personality), STATE_BYTES, MOST_GROUPS
        result(self.calls.willowera_step(self.personality, sizes[0], self.state, sizes[1], inputs, self.buffer, sizes[2]))
        return self.buffer.raw
