"""The deepest stack of each exported call, as a bound that no run can pass.

    python3 targets/stack.py TARGET [PROGRAM]

prints, for each call: the bytes of stack below its caller that the library's own functions can take, the outside helpers that it reaches, and,
if a linked PROGRAM for Cortex-M is named, the bytes with the helpers as they are linked there.

The bound is the longest way through the call graph, each function at the size of its frame. The frames are the compiler's own report
(-fstack-usage, target/targets/TARGET/willowera.su); the calls are the relocations of the object, one section for each function. A graph
with a cycle, a frame of changing size, and a function whose address is used for anything but a call are refused; that the module makes no
call through a pointer is judged in targets/judge.py. The frames of the helpers, and a second reading of the library's own, are the pushes
and moves of the stack pointer in the disassembly.
"""

import re
import sys
from bisect import bisect_right

from build import TARGETS, allowed
from judge import calls, exported
from kit import BUILT, Refused, said_by, told, tool

CALLS = re.compile(r"R_(ARM_(THM_)?(CALL|JUMP24)|AARCH64_(CALL|JUMP)26|RISCV_(CALL|CALL_PLT|JAL))$")


# ── The bound ──


def depths(graph, frames):
    """The deepest stack of each function of the graph, its own frame included."""
    known = {}

    def deepest(name, way):
        if name in way:
            raise Refused(f"{name} calls itself: {', '.join(way[way.index(name):] + [name])}; its stack has no bound")
        if name not in frames:
            raise Refused(f"no stack is reported for {name}")
        if name not in known:
            known[name] = frames[name] + max((deepest(other, way + [name]) for other in graph[name]), default=0)
        return known[name]

    return {name: deepest(name, []) for name in graph}


def reached(graph, name):
    """All that a function can call, itself included."""
    seen, left = set(), [name]
    while left:
        at = left.pop()
        if at not in seen:
            seen.add(at)
            left.extend(graph.get(at, ()))
    return seen


# ── The library's own functions ──


def reported(path):
    """The frames of the compiler's report."""
    frames = {}
    for line in path.read_text().splitlines():
        place, size, kind = line.split("\t")
        if kind != "static":
            raise Refused(f"{place}: the frame is {kind}, so that its size is not known")
        frames[re.sub(r"^.*?\.(ll|c:\d+):", "", place)] = int(size)
    return frames


def own_calls(path):
    """For each function of an object, the functions that its section has relocations to. A target is named by its function, by the section of
    its function, or by a local label, which is a jump within the function. The address of its own section is that of a table of jumps."""
    functions = {row[7] for row in rows(said_by(tool("llvm-readelf"), "-sW", path)) if len(row) == 8 and row[3] == "FUNC"}
    graph, section = {name: set() for name in functions}, None
    for row in rows(said_by(tool("llvm-readelf"), "-rW", path)):
        if row[:2] == ["Relocation", "section"]:
            section = re.sub(r"^'\.rela?(.*)'$", r"\1", row[2])
            if section.startswith(".text") and section.removeprefix(".text.") not in functions:
                raise Refused(f"the section {section} does not have the name of a function")
            section = section.removeprefix(".text.")
        elif section in graph and len(row) > 4 and row[2].startswith("R_"):
            name = row[4].removeprefix(".text.")
            if CALLS.match(row[2]) and not name.startswith(".L"):
                graph[section].add(name)
            elif name in functions and name != section:
                raise Refused(f"{section} uses the address of {name} by {row[2]}: a call through it would not be seen")
    return graph


def rows(text):
    return [line.split() for line in text.splitlines() if line.strip()]


# ── The outside helpers, in a linked program for Cortex-M ──

LINE = re.compile(r"^\s*([0-9a-f]+):\s+(\S.*)$")
LIST = re.compile(r"^(?:push(?:\.w)?|stmdb(?:\.w)?\s+sp!,|vpush)\s*\{(.*)\}")
MOVED = re.compile(r"^subw?(?:\.w)?\s+sp, (?:sp, )?#(0x[0-9a-f]+|\d+)|\[sp, #-(0x[0-9a-f]+|\d+)\]!")
BRANCH = re.compile(r"^(?:bl?x?|cbn?z)(?:eq|ne|cs|hs|cc|lo|mi|pl|vs|vc|hi|ls|ge|lt|gt|le)?(?:\.[wn])?\s+(?:r\d+, )?(?:(0x[0-9a-f]+)|r\d+|ip)\b")


def registers(words):
    """The bytes of a list of registers."""
    total = 0
    for word in words.split(", "):
        first, _, last = word.partition("-")
        count = int(last[1:]) - int(first[1:]) + 1 if last else 1
        total += count * (8 if first.startswith("d") else 4)
    return total


def functions_of(path):
    """The functions of a linked program: at each address its names, and the address behind it. A size of 0 reaches to the next function."""
    names, ends = {}, {}
    for name, kind, value, size in (row for row in rows(said_by(tool("llvm-nm"), "--format=posix", path)) if len(row) == 4):
        if kind in "tTwW" and not name.startswith("$"):
            at = int(value, 16) & ~1
            names.setdefault(at, set()).add(name)
            ends[at] = max(ends.get(at, 0), at + int(size, 16))
    starts = sorted(names)
    for at, following in zip(starts, starts[1:] + [1 << 32]):
        ends[at] = ends[at] if ends[at] > at else following
    return names, ends


def disassembled(path):
    """For each function of a program for Cortex-M, the bytes that it pushes, and where it branches to; "*" is a branch to a register."""
    names, ends = functions_of(path)
    starts, pushed, branches = sorted(names), dict.fromkeys(names, 0), {at: set() for at in names}

    def at_of(address):
        start = starts[max(bisect_right(starts, address) - 1, 0)]
        return start if start <= address < ends[start] else None

    for line in map(LINE.match, said_by(tool("llvm-objdump"), "-d", "--no-show-raw-insn", path).splitlines()):
        at = line and at_of(int(line[1], 16))
        if at is None:
            continue
        several, moved, branch = LIST.search(line[2]), MOVED.search(line[2]), BRANCH.match(line[2])
        if several or moved:
            pushed[at] += registers(several[1]) if several else int(moved[1] or moved[2], 0)
        if branch:
            branches[at].add(at_of(int(branch[1], 16)) if branch[1] else "*")
    def named(to):
        return "*" if to in (None, "*") else min(names[to])
    graph = {name: {named(to) for to in branches[at] - {at}} for at in names for name in names[at]}
    return {name: pushed[at] for at in names for name in names[at]}, graph


def with_helpers(graph, frames, program):
    """The graph and frames of the library with those of the helpers that it reaches, as they are linked in a program."""
    linked_frames, linked_graph = disassembled(program)
    for name in graph:
        if name in linked_frames and linked_frames[name] != frames[name]:
            raise Refused(f"{name}: the compiler reports a frame of {frames[name]} bytes, the disassembly has {linked_frames[name]}")
    outside = set().union(*graph.values()) - set(graph)
    helpers = {name for helper in outside for name in reached(linked_graph, helper)}
    for name in helpers:
        if name not in linked_frames or "*" in linked_graph[name]:
            raise Refused(f"the helper {name} is not linked, or branches to a register: its stack has no bound")
    return {**graph, **{name: linked_graph[name] for name in helpers}}, {**frames, **{name: linked_frames[name] for name in helpers}}


def bounds(target, program=None, folder=None):
    """For each exported call: the bytes without helpers, the helpers, and the bytes with them (None without a program)."""
    folder = folder or BUILT / target
    text = (BUILT / "module" / "module.ll").read_text()
    depths(calls(text), dict.fromkeys(calls(text), 0))  # the module itself has no cycle
    graph, frames = own_calls(folder / "willowera.o"), reported(folder / "willowera.su")
    outside = set().union(*graph.values()) - set(graph)
    if not outside <= allowed(target.removesuffix("-strict")):
        raise Refused(f"{target}: {', '.join(sorted(outside))}: not all of these are names that targets/needs.txt lists")
    alone = depths({**graph, **{name: set() for name in outside}}, {**frames, **dict.fromkeys(outside, 0)})
    full = depths(*with_helpers(graph, frames, program)) if program else {}
    return {name: (alone[name], sorted(reached(graph, name) & outside), full.get(name)) for name in exported(text)}


def main():
    if len(sys.argv) not in (2, 3) or sys.argv[1].removesuffix("-strict") not in TARGETS:
        raise Refused(f"usage: stack.py TARGET [PROGRAM], with one of the targets {' '.join(TARGETS)}")
    for name, (alone, helpers, full) in bounds(*sys.argv[1:]).items():
        print(f"{name} {alone} {'+'.join(helpers) or '-'}{'' if full is None else f' {full}'}")


if __name__ == "__main__":
    told(main)
