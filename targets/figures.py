"""The tables of the data sheet about other processors, as Markdown (targets/figures.sh)."""

import shutil
import sys
import tempfile
from pathlib import Path

import build
import stack
from build import TARGETS
from kit import BUILT, ROOT, Alone, Refused, said_by, told, tool
from module import module
from stack import bounds, own_calls, reached, rows

SITES = ["two_phases", "four_phases", "largest"]
STEPS = "2000"
CLOCK_MHZ = 100
CYCLES = (1.0, 1.5)  # of an instruction of a Cortex-M4 on average, from memory without wait states: an estimate


def table(head, lines):
    print(f"| {' | '.join(head)} |\n|{'---|' * len(head)}")
    for line in lines:
        print(f"| {' | '.join(str(word) for word in line)} |")
    print()


def number(value):
    return f"{value:,}"


# ── Sizes ──


def section_rows(path):
    """Number, name and size of each section of an object or a WebAssembly module."""
    return [row for row in rows(said_by(tool("llvm-objdump"), "-h", path)) if len(row) > 3 and row[0].isdigit()]


def sections(path):
    """The bytes of code and of constants."""
    kinds = {"code": 0, "constants": 0}
    for name, size in ((row[1], int(row[2], 16)) for row in section_rows(path)):
        if name == "CODE" or name.startswith(".text"):
            kinds["code"] += size
        elif name == "DATA" or name.startswith(".rodata"):
            kinds["constants"] += size
        elif size > 0 and name.startswith((".data", ".bss")):
            raise Refused(f"{path} has the writable section {name}")
    return kinds


def archives():
    """Every target and strict target, built."""
    with Alone():
        text = module()
        return [build.build(target, strict, text) for target, words in TARGETS.items() for strict in (False, True) if words[2] or not strict]


def sizes():
    for made in archives():
        kinds = sections(made if made.suffix == ".wasm" else made.with_name("willowera.o"))
        extra = made.with_name("strict_memory.o")
        memory = sections(extra)["code"] if extra.exists() else 0
        yield f"`{made.parent.name}`", number(kinds["code"] + memory), number(kinds["constants"]), number(sum(kinds.values()) + memory)


# ── Stack ──


def stacks():
    """For each call: the bound of its stack, the code that a linker keeps for it alone, and the helpers."""
    made = BUILT / "cortex-m4" / "willowera.o"
    graph = own_calls(made)
    code = {row[1].removeprefix(".text."): int(row[2], 16) for row in section_rows(made)}
    for name, (alone, helpers, _) in bounds("cortex-m4").items():
        kept = sum(code.get(function, 0) for function in reached(graph, name))
        yield f"`{name}`", number(alone), number(kept), ", ".join(f"`{helper}`" for helper in helpers)


def linked_stacks():
    """The bounds with Debian's newlib and libgcc linked."""
    with tempfile.TemporaryDirectory() as room:
        said_by(ROOT / "targets" / "measure" / "run.sh", "--linked", "cortex-m4", every_call(Path(room)), f"{room}/linked")
        return bounds("cortex-m4", f"{room}/linked")


def every_call(room):
    path = room / "calls.c"
    path.write_text(said_by(sys.executable, ROOT / "targets" / "calls.py"))
    return path


# ── Steps ──


def measured(folder, program, *words):
    """What targets/measure counted: for accepted and for refused calls, the number of calls, mean, most and stack."""
    said = said_by(ROOT / "targets" / "measure" / "run.sh", folder, program, *words)
    return {row[0]: [int(word) for word in (row[1], row[3], row[5], row[7])] for row in rows(said) if row[0] in ("accepted", "refused")}


def microseconds(instructions):
    low, high = (instructions * cycles / CLOCK_MHZ for cycles in CYCLES)
    return f"{low:.0f} to {high:.0f} µs"


def step(site, folder):
    """The row of a site: accepted steps with random inputs, and steps from the fresh state with one bit of the personality flipped."""
    personality = f"examples/{site}/personality.bin"
    _, mean, most, stack = measured(folder, "examples/c/instructions.c", personality, STEPS)["accepted"]
    flips = measured(folder, "targets/measure/flips.c", personality)
    count, refused_mean, refused_most, _ = flips["refused"]
    deepest = max(stack, *(kind[3] for kind in flips.values()))
    return (site, f"`{folder}`", number(mean), number(most), number(refused_mean), number(refused_most), number(count), microseconds(most),
            microseconds(refused_most), number(deepest))


# ── Levels ──


def levels():
    """The levels of optimisation on Cortex-M4: code, bound of the stack of a step, and steps of the largest example site. At another level the
    code may call memmove as well."""
    listed = build.allowed
    build.allowed = stack.allowed = lambda target: listed(target) | {"memmove"}
    for level in ("-O3", "-O2", "-Os", "-Oz"):
        build.LEVEL, folder = level, BUILT / f"level{level}"
        shutil.rmtree(folder, ignore_errors=True)
        folder.mkdir(parents=True)
        build.archive("cortex-m4", False, BUILT / "module" / "module.ll", folder)
        _, _, mean, most, _, refused, *_ = step("largest", folder.name)
        yield f"`{level}`", number(sections(folder / "willowera.o")["code"]), number(bounds("cortex-m4", folder=folder)["willowera_step"][0]), mean, most, refused
        shutil.rmtree(folder)


def fixed():
    table(["Target", "Code, bytes", "Constants", "Together"], sizes())
    table(["Call, on `cortex-m4`", "Stack, bytes", "Code kept for it alone", "Helpers it may call, not counted"], stacks())


def all_tables():
    fixed()
    table(["Call for which the helpers of newlib and libgcc go deeper", "Stack with them, bytes"],
          ((f"`{name}`", number(full)) for name, (alone, _, full) in linked_stacks().items() if full > alone))
    table(["Site", "Target", "Instructions of a step: mean", "most seen", "refused: mean", "most seen", "refused calls",
           f"Longest seen at {CLOCK_MHZ} MHz (estimate)", "refused", "Painted stack, bytes"],
          [*(step(site, "cortex-m4") for site in SITES), step("largest", "cortex-m4-strict")])


def level_table():
    table(["Level, `cortex-m4`", "Code, bytes", "Stack of a step", "Instructions of a step, largest site: mean", "most seen", "refused: most seen"], levels())


def main():
    tables = {(): all_tables, ("fixed",): fixed, ("levels",): level_table}.get(tuple(sys.argv[1:]))
    if tables is None:
        raise Refused("usage: figures.py [fixed | levels]")
    tables()


if __name__ == "__main__":
    told(main)
