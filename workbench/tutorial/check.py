"""Runs docs/TUTORIAL.md: writes its texts, makes its mistakes, executes its commands and compares what they print.

    check.py WILLOWERA      the program to run

Blocks of the document, by the word behind ```:

    site.txt, inputs.txt    text that is added to this file
    mistake, night.txt      lines with - and + that change a copy of site.txt (mistake.txt, night.txt), then as `console`; a mistake
                            without a command is checked
    console                 lines with $ are commands, the lines below them what they print; `...` stands for any lines, or for the rest of a
                            line; `[exit status N]` for a status other than 0

The exit status is 1 if something differs, or if a damaged expectation would not be noticed."""

import ctypes
import itertools
import json
import os
import pathlib
import re
import subprocess
import sys
import tempfile

HERE = pathlib.Path(__file__).resolve().parent
ROOT = HERE.parents[1]
DOCUMENT = ROOT / "docs/TUTORIAL.md"
STATUS = re.compile(r"\[exit status (\d+)\]")
MISTAKES = 8
WALKING = 1.2  # metres in a second

sys.dont_write_bytecode = True
sys.path.append(str(HERE.parent / "sumo"))
import library  # noqa: E402


class Wrong(Exception):
    """The document is wrong, in words."""


class Command:
    """A command of the document, what it should print and its status; then what it did."""

    def __init__(self, line, text, expected):
        self.line, self.text = line, text
        status = STATUS.fullmatch(expected[-1]) if expected else None
        self.status = int(status.group(1)) if status else 0
        self.expected = expected[:-1] if status else expected
        self.printed, self.ended = "", 0

    def run(self, folder, program):
        paths = f"{program.parent}:{os.environ['PATH']}"
        done = subprocess.run(["bash", "-c", self.text], cwd=folder, stdin=subprocess.DEVNULL, stdout=subprocess.PIPE, stderr=subprocess.STDOUT,
                              text=True, timeout=300, env={**os.environ, "PATH": paths, "NO_COLOR": "1"})
        self.printed, self.ended = done.stdout, done.returncode

    def fits(self, expected, status):
        return fits(expected, self.printed) and status == self.ended

    def judge(self):
        if not self.fits(self.expected, self.status):
            raise Wrong(f"{DOCUMENT.name}:{self.line}: `{self.text}` ends with status {self.ended} and prints\n{self.printed}")


def fits(expected, printed):
    """Whether a text is as expected."""
    def pattern(line):
        if line == "...":
            return r"(?:.*\n)*?"
        return re.escape(line.removesuffix("...")) + (r".*\n" if line.endswith("...") else r"\n")
    return re.fullmatch("".join(pattern(line) for line in expected), printed) is not None


def blocks(text):
    """The fenced blocks of a document: line, word, lines."""
    found, word, start = [], None, 0
    for number, line in enumerate(text.splitlines(), 1):
        if not line.startswith("```"):
            if word is not None:
                found[-1][2].append(line)
        elif word is None:
            word, start = line[3:], number
            found.append((start, word, []))
        else:
            word = None
    return found


def changed(text, lines, where):
    """A text with each line behind - replaced by the one behind + that follows it."""
    for old, new in itertools.zip_longest(lines[::2], lines[1::2], fillvalue=" "):
        if old[0] != "-" or new[0] != "+" or text.count(f"{old[1:]}\n") != 1:
            raise Wrong(f"{DOCUMENT.name}:{where}: `{old}`, `{new}` is not a change of one line of the site")
        text = text.replace(f"{old[1:]}\n", f"{new[1:]}\n")
    return text


def commands(line, lines):
    """The commands of a block."""
    starts = [at for at, one in enumerate(lines) if one.startswith("$ ")]
    return [Command(line + 1 + at, lines[at][2:], lines[at + 1:end]) for at, end in zip(starts, starts[1:] + [len(lines)])]


def follow(text, folder, program):
    """Does what the document says, in a folder: the commands, and those of the mistakes among them."""
    done, mistakes = [], []
    site = folder / "site.txt"
    for line, word, lines in blocks(text):
        if word not in ("site.txt", "inputs.txt", "mistake", "night.txt", "console"):
            raise Wrong(f"{DOCUMENT.name}:{line}: a block `{word}` is not known")
        if word in ("site.txt", "inputs.txt"):
            with open(folder / word, "a", encoding="utf-8") as file:
                file.write("\n".join(lines) + "\n")
            continue
        changes = list(itertools.takewhile(lambda one: one.startswith(("-", "+")), lines)) if word != "console" else []
        if changes:
            name = "mistake.txt" if word == "mistake" else word
            (folder / name).write_text(changed(site.read_text(), changes, line))
        block = lines[len(changes):]
        if word == "mistake" and not any(one.startswith("$ ") for one in block):
            refused = any(" error: " in one or " refused: " in one for one in block)
            block = ["$ willowera check mistake.txt", *block] + (["[exit status 1]"] if refused else [])
        new = commands(line, block)
        for command in new:
            command.run(folder, program)
            command.judge()
        done += new
        mistakes += new if word == "mistake" else []
    return done, mistakes


def settings_hold(text, site, calls):
    """The table of M, G and Y has what the library gives, and the site has the same."""
    calls.willowera_settings.argtypes = [ctypes.c_uint32, ctypes.c_uint32, ctypes.c_double]
    calls.willowera_yellow.argtypes = [ctypes.c_uint32, ctypes.c_int32]
    calls.willowera_settings.restype = calls.willowera_yellow.restype = ctypes.c_uint64
    rows = re.findall(r"^\| ([A-G]) \| (\d+) m \| (\d+) km/h \| ([\d.]+) s \| ([\d.]+) s \| (\d+) km/h \| ([-+\d]+) % \| ([\d.]+) s \|$", text, re.M)
    if [row[0] for row in rows] != [phase["letter"] for phase in site["phases"]]:
        raise Wrong("the table of settings does not have a row for each phase")
    for (letter, metres, there, *stated, speed, grade, yellow), phase in zip(rows, site["phases"]):
        sheet = library.result(calls.willowera_settings(int(there), 0, float(metres)))
        given = [sheet & 0xFFFF, sheet >> 16, library.result(calls.willowera_yellow(int(speed), int(grade))) & 0xFF]
        stated = [round(float(one) * 10) for one in (*stated, yellow)]
        if given != stated or given != [phase["times"][at] for at in (1, 3, 4)]:
            raise Wrong(f"phase {letter}: the library gives {given} steps, the table {stated}, the site {phase['times']}")
    for movement in site["movements"]:
        needed = site["groups"][movement["group"]]["length"] / WALKING * 10
        if sum(movement["times"][1:]) < needed - 1e-9:
            raise Wrong(f"{movement['name']}: the clearances are shorter than {needed:.0f} steps")


def damage_is_noticed(done):
    """Each expected line and status, if it were another one, would not fit what was printed. The number of those tried."""
    tried = 0
    for command in done:
        for at, line in enumerate(command.expected):
            if line == "...":
                continue
            end = "..." if line.endswith("...") else ""
            damaged = line.removesuffix("...")[:-1] + "?" + end
            if command.fits(command.expected[:at] + [damaged] + command.expected[at + 1:], command.status):
                raise Wrong(f"{DOCUMENT.name}:{command.line}: `{damaged}` would fit too")
            tried += 1
        if command.fits(command.expected, command.status + 1):
            raise Wrong(f"{DOCUMENT.name}:{command.line}: another exit status would fit too")
        tried += 1
    return tried


def refuses(what, *call):
    """A damaged document is wrong."""
    try:
        what(*call)
    except Wrong:
        return 1
    raise Wrong("a damaged text, table or change of the document is not noticed")


def files_stand(folder):
    """The texts in this folder are those of the document, and its files were written."""
    missing = [name for name in ("site.txt", "inputs.txt", "night.txt", "run.svg", "queues.svg", "site.bin", "report.html") if not (folder / name).exists()]
    if missing:
        raise Wrong(f"it does not make {', '.join(missing)}")
    for name in ("site.txt", "inputs.txt", "night.txt"):
        if (folder / name).read_text() != (HERE / name).read_text():
            raise Wrong(f"{HERE.name}/{name} is not the text of the document")
    empty = [name for name in ("run.svg", "queues.svg", "site.bin", "report.html") if not (folder / name).stat().st_size]
    if empty:
        raise Wrong(f"nothing was written to {empty}")


def check(text, folder, program):
    done, mistakes = follow(text, folder, program)
    files_stand(folder)
    said = "".join(command.printed for command in mistakes)
    kinds = [len(re.findall(f"^mistake.txt:[0-9:]+ {kind}: ", said, re.M)) for kind in ("error", "refused", "warning")]
    if len(mistakes) != MISTAKES or sum(kinds) != MISTAKES or 0 in kinds:
        raise Wrong(f"{len(mistakes)} mistakes with {kinds} errors, refusals and warnings; expected {MISTAKES}, some of each")
    site = json.loads(subprocess.check_output([program, "check", "--json", folder / "site.txt"]))["site"]
    calls = library.load(ROOT, folder)
    settings_hold(text, site, calls)
    noticed = damage_is_noticed(done)
    noticed += refuses(settings_hold, text.replace("| 14.0 s |", "| 14.1 s |"), site, calls)
    noticed += refuses(changed, (folder / "site.txt").read_text(), ["-no such row", "+another"], 0)
    (folder / "night.txt").write_text("other\n")
    noticed += refuses(files_stand, folder)
    print(f"{len(done)} commands; {MISTAKES} mistakes: {kinds[0]} error, {kinds[1]} refusals, {kinds[2]} warnings; {noticed} damages noticed")


def main():
    if len(sys.argv) != 2:
        sys.exit(__doc__)
    program = pathlib.Path(sys.argv[1]).resolve()
    with tempfile.TemporaryDirectory() as folder:
        try:
            check(DOCUMENT.read_text(encoding="utf-8"), pathlib.Path(folder), program)
        except Wrong as why:
            sys.exit(f"docs/TUTORIAL.md: {why}")


if __name__ == "__main__":
    main()
