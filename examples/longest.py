#!/usr/bin/env python3
"""The longest waits of the example sites, replayed: a program writes the inputs that drive each phase and each movement to its longest wait, and
each trace program must show that wait.

    longest.py LONGEST TRACE ..

LONGEST is the program of rust/longest; each TRACE reads its standard input as the trace program does. For each phase and each movement of each site:
the script of the inputs has the bytes that the program wrote for the trace program; the demand is registered in the step that is stated, and is met
in the step that is stated and in none before; the wait that is promised is that of vectors/waits.py; NOTE.md has the row with both numbers,
and README.md the row of the site.
The exit status is 0 only if all of this is true."""
import re
import subprocess
import sys
import tempfile
from pathlib import Path

HERE = Path(__file__).resolve().parent
sys.path.insert(0, str(HERE.parent / "vectors"))

from build import Mistake, inputs_of, need, site_of, stdin_of  # noqa: E402
from controller import Site  # noqa: E402
from waits import all_waits  # noqa: E402

DEMAND = re.compile(r"# (\w+), (lock by|held call of|button)(?: detector)? (\d+): ")
STEPS = re.compile(r"# Registered in step (\d+), met in step (\d+): (\d+) further steps\. Promised are fewer than (\d+)\.")
FIRST_BUTTON = 48


def trace_of(program, stdin):
    """The phase, the interval and the groups of each step."""
    lines = subprocess.run([program], input=stdin, capture_output=True, check=True).stdout.decode().splitlines()
    return [line.split()[1:] for line in lines[1:]]


def begins(site, name, trace):
    """The steps in which the minimum green of a phase or the walk of a movement begins."""
    if name.startswith("P"):
        group = site.crossings[int(name[1:]) - 1]
        shown = [groups[group] == "G" for _, _, groups in trace]
    else:
        shown = [(phase, interval) == (name, "M") for phase, interval, _ in trace]
    return [step for step, now in enumerate(shown, 1) if now and (step == 1 or not shown[step - 2])]


def replayed(place, text, inputs, traces, site, name):
    """The wait that the traces show, and the one that is promised, by the two lines that a script begins with."""
    first, second = text.splitlines()[:2]
    demand, steps = DEMAND.match(first), STEPS.match(second)
    need(demand and steps and demand[1] == name, place, "its first two lines do not name the demand and its steps")
    registered, met, wait, promised = map(int, steps.groups())
    bit = int(demand[3]) + (FIRST_BUTTON if demand[2] == "button" else 0)
    last = met if demand[2] == "held call of" else registered
    need(all(inputs[step - 1] >> bit & 1 for step in range(registered, last + 1)), place, "the demand is not made as stated")
    need(met - registered == wait < promised, place, "the steps do not make the wait")
    for trace in traces:
        later = [step for step in begins(site, name, trace) if step >= registered]
        need(later[:1] == [met], place, f"met in step {later[:1]}, stated is {met}")
    return promised, wait


def rows_of(name, longest, programs):
    """The rows of an example site."""
    personality = (HERE / name / "personality.bin").read_bytes()
    text_site, site = site_of(HERE / name / "site.txt")[0], Site(personality)
    names = ["ABCDEFG"[p] for p in range(len(site.phases))] + [f"P{k + 1}" for k in range(len(site.walks))]
    with tempfile.TemporaryDirectory() as folder:
        subprocess.run([longest, HERE / name / "personality.bin", folder], capture_output=True, check=True)
        for of, promised in zip(names, all_waits(personality), strict=True):
            path = Path(folder) / f"inputs_{of}.txt"
            place, inputs = f"{name}/{path.name}", inputs_of(path, text_site)
            stdin = (Path(folder) / f"stdin_{of}.bin").read_bytes()
            need(stdin == stdin_of(personality, inputs), place, "the script and the input of the trace program differ")
            traces = [trace_of(program, stdin) for program in programs]
            stated, wait = replayed(place, path.read_text(encoding="utf-8"), inputs, traces, site, of)
            need(stated == promised, place, f"{stated} promised, expected {promised}")
            yield of, promised, wait


def summary(name, rows):
    """The row of a site in README.md: its waits, and how many steps fewer were driven where it is not one."""
    waits = ", ".join(f"{of} {promised:,}" for of, promised, _ in rows)
    fewer = ", ".join(f"{of} {promised - wait}" for of, promised, wait in rows if promised - wait != 1)
    return f"| `{name}` | {waits} | {fewer or '-'} |"


def main(arguments):
    if len(arguments) < 2:
        print(__doc__)
        return 2
    longest, *programs = arguments
    readme = (HERE / "README.md").read_text(encoding="utf-8").splitlines()
    sites = sorted(HERE.glob("*/site.txt"))
    need(sites, HERE, "no folder has a site.txt: nothing was driven")
    for path in sites:
        name = path.parent.name
        note = (HERE / name / "NOTE.md").read_text(encoding="utf-8").splitlines()
        rows = list(rows_of(name, longest, programs))
        print(summary(name, rows), flush=True)
        need(summary(name, rows) in readme, "README.md", f"the row `{summary(name, rows)}` is missing")
        for of, promised, wait in rows:
            row = f"| {of} | {promised:,} | {wait:,} |"
            need(row in note, f"{name}/NOTE.md", f"the row `{row}` is missing")
    return 0


if __name__ == "__main__":
    try:
        sys.exit(main(sys.argv[1:]))
    except Mistake as mistake:
        sys.exit(str(mistake))
