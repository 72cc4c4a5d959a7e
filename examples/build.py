#!/usr/bin/env python3
"""Builds the example sites.

    build.py NAME ..    reads NAME/site.txt, its other plans of times and its input scripts, and writes the .bin files beside them
    build.py --check    builds every site in memory and compares it with the files that are kept

README.md describes both text forms. A mistake is told with its file and line, and that site is not written."""
import re
import sys
from itertools import takewhile
from pathlib import Path
from typing import NamedTuple

HERE = Path(__file__).resolve().parent
sys.dont_write_bytecode = True
sys.path.insert(0, str(HERE.parent / "vectors"))
from model import EDITIONS, PHASE_FIELDS, WALK_FIELDS, verdict

SITE_KIND = {1: 1, 2: 8}  # the kind of the site section, by edition
SECTIONS = ("site", "phases", "groups", "conflicts", "detectors", "pedestrians", "early-cut-off", "order", "approaches", "streams")
WORKBENCH_ROWS = {"name", "traffic"}  # in section site; only the workbench reads them, the last two sections, and what follows these words:
WORKBENCH_WORDS = {"approach", "lane", "lanes", "arrow", "metres", "length", "not"}
NEEDED = 6  # the sections after these need not be there
LETTERS = tuple("ABCDEFG")
MARKS = {"vehicle": 0, "late-start": 1, "pedestrian": 2, "early-cut-off": 3}
CALLS = {"no-call": 0, "non-locking": 1, "locking": 2}
EXTENDS = 4
FIRST_BUTTON = 48
MOST = {"groups": 32, "detectors": 48, "pedestrian groups": 8, "steps": 36000, "road steps": 180000, "streams": 48, "rate": 1800}


class Mistake(Exception):
    """What is wrong with a text, and where."""


class Line(NamedTuple):
    place: str
    words: list


class Group(NamedTuple):
    name: str
    phases: int
    mark: int


class Site(NamedTuple):
    edition: int
    start_red: int
    phases: list
    groups: list
    conflicts: list
    detectors: list
    walks: list
    early: list  # the early cut-off time of each phase, or nothing where there is no such section
    order: list  # the phases as they run, or nothing where there is no such section


def need(truth, place, what):
    if not truth:
        raise Mistake(f"{place}: {what}")


# ── Reading lines ──

def words_of(text):
    """The words of a line, without its comment and its names in quotation marks. A time in seconds (`4.5 s`) is turned into steps."""
    text = re.sub(r"(?<!\S)(\d+)(?:\.(\d))?\s*s(?!\S)", lambda time: str(10 * int(time[1]) + int(time[2] or 0)), text)
    words = [word for word in re.findall(r'"[^"]*"|#.*|[^\s#"]+', text) if word[0] not in '"#']
    return list(takewhile(lambda word: word not in WORKBENCH_WORDS, words))


def lines_of(path):
    """The lines that hold words, without what only the workbench reads."""
    found = []
    for number, text in enumerate(path.read_text(encoding="utf-8").splitlines(), 1):
        words = words_of(text)
        if words and words[0] not in WORKBENCH_ROWS:
            found.append(Line(f"{path.parent.name}/{path.name}:{number}", words))
    return found


def whole(line, word):
    need(word.isdecimal(), line.place, f"{word} is not a whole number")
    return int(word)


def time(line, edition, name, word):
    value = whole(line, word)
    low, high = EDITIONS[SITE_KIND[edition]][name]
    need(low <= value <= high, line.place, f"{name} is {value}, not {low} to {high}")
    return value


def times(line, edition, names, words):
    need(len(words) == len(names), line.place, f"needs the times {' '.join(names)}")
    return tuple(time(line, edition, name, word) for name, word in zip(names, words))


# ── Reading a site ──

def sections_after(names):
    """The sections that may follow those that are there: the next one needed, or any later one that need not be there."""
    last = SECTIONS.index(names[-1]) + 1 if names else 0
    return SECTIONS[last:last + 1] if last < NEEDED else SECTIONS[last:]


def sections_of(path):
    """The lines of each section; the headings stand in their order, each once."""
    sections = {}
    for line in lines_of(path):
        if len(line.words) == 1 and line.words[0] in SECTIONS:
            name = line.words[0]
            need(name in sections_after(list(sections)), line.place, f"{name} is not the section expected here")
            sections[name] = []
        else:
            need(sections, line.place, "stands before the first section")
            sections[name].append(line)
    need(len(sections) >= NEEDED, path.parent.name, "a section is missing")
    return sections


def site_settings(lines, place):
    """The edition of the limits, which is 1 where no line names it, start red, and the wait bound that was worked out by hand."""
    found = {" ".join(line.words[:-1]): line for line in lines}
    need(set(found) - {"edition"} == {"start red", "wait bound"}, place, "section site needs `start red` and `wait bound`")
    named, start, bound = found.get("edition"), found["start red"], found["wait bound"]
    edition = whole(named, named.words[-1]) if named else 1
    need(edition in SITE_KIND, place, f"there is no edition {edition}")
    return edition, time(start, edition, "start", start.words[-1]), whole(bound, bound.words[-1])


def phase_rows(lines, edition, place):
    need(2 <= len(lines) <= 7, place, f"{len(lines)} phases, not 2 to 7")
    for letter, line in zip(LETTERS, lines):
        need(line.words[0] == letter, line.place, f"phase {letter} belongs here")
    return [times(line, edition, PHASE_FIELDS, line.words[1:]) for line in lines]


def phase_set(line, letters, count):
    """The set as a number; `-` is the empty set."""
    phases = 0
    for letter in letters.replace("-", ""):
        need(letter in LETTERS[:count], line.place, f"there is no phase {letter}")
        phases |= 1 << LETTERS.index(letter)
    return phases


def group_row(line, count):
    need(len(line.words) == 3, line.place, "a group is a name, its phases and its mark")
    name, letters, mark = line.words
    need(mark in MARKS, line.place, f"{mark} is not one of {' '.join(MARKS)}")
    group = Group(name, phase_set(line, letters, count), MARKS[mark])
    single = bin(group.phases).count("1") == 1
    need(single or mark != "pedestrian", line.place, "a pedestrian group has exactly one phase")
    return group


def group_rows(lines, count, place):
    need(1 <= len(lines) <= MOST["groups"], place, f"{len(lines)} groups, not 1 to {MOST['groups']}")
    groups = [group_row(line, count) for line in lines]
    need(len({group.name for group in groups}) == len(groups), place, "two groups have the same name")
    need(len(pedestrians_of(groups)) <= MOST["pedestrian groups"], place, "a ninth pedestrian group")
    for p in range(count):
        need(any(group.phases >> p & 1 for group in groups), place, f"phase {LETTERS[p]} is in no group")
    return groups


def pedestrians_of(groups):
    return [group for group in groups if group.mark == MARKS["pedestrian"]]


def conflict_row(line, groups):
    names = [group.name for group in groups]
    row = 0
    for name in line.words[1:]:
        need(name in names, line.place, f"there is no group {name}")
        row |= 1 << names.index(name)
    return row


def conflict_rows(lines, groups, place):
    """One row for each group, in the order of the groups."""
    need(len(lines) == len(groups), place, "conflicts need one row for each group")
    for line, group in zip(lines, groups):
        need(line.words[0] == group.name + ":", line.place, f"the row of {group.name} belongs here")
    rows = [conflict_row(line, groups) for line in lines]
    for g, line in enumerate(lines):
        for j in range(len(groups)):
            if rows[g] >> j & 1:
                check_conflict(line, groups, rows, g, j)
    return rows


def check_conflict(line, groups, rows, g, j):
    other = groups[j].name
    need(g != j, line.place, "a group is in conflict with itself")
    need(rows[j] >> g & 1, line.place, f"the row of {other} lacks {groups[g].name}")
    need(not groups[g].phases & groups[j].phases, line.place, f"shares a phase with {other}")


def detector_row(line, number, count):
    need(len(line.words) in (3, 4), line.place, "a detector is a number, its phase and its mode")
    need(line.words[0] == str(number), line.place, f"detector {number} belongs here")
    letter, call = line.words[1:3]
    extending = line.words[3:]
    need(letter in LETTERS[:count], line.place, f"there is no phase {letter}")
    need(call in CALLS, line.place, f"{call} is not one of {' '.join(CALLS)}")
    need(extending in ([], ["extending"]), line.place, "only extending may follow the call")
    return LETTERS.index(letter), CALLS[call] + (EXTENDS if extending else 0)


def detector_rows(lines, count, place):
    need(len(lines) <= MOST["detectors"], place, f"more than {MOST['detectors']} detectors")
    return [detector_row(line, number, count) for number, line in enumerate(lines)]


def check_calls(detectors, groups, count, place):
    """Every phase has a calling detector or a pedestrian group."""
    for p in range(count):
        by_detector = any(phase == p and mode & ~EXTENDS for phase, mode in detectors)
        by_button = any(group.phases >> p & 1 for group in pedestrians_of(groups))
        need(by_detector or by_button, place, f"nobody can call phase {LETTERS[p]}")


def walk_rows(lines, edition, groups, place):
    names = [group.name for group in pedestrians_of(groups)]
    need([line.words[0] for line in lines] == names, place, f"section pedestrians needs the rows {' '.join(names)}")
    return [times(line, edition, WALK_FIELDS, line.words[1:]) for line in lines]


def early_rows(text, edition, count, groups, place):
    """The time of each phase, in letter order; nothing where there is no such section, and then no group that stops early."""
    lines = text.get("early-cut-off", [])
    if "early-cut-off" not in text:
        need(all(group.mark != MARKS["early-cut-off"] for group in groups), place, "a group stops early without times")
        return []
    need([line.words[0] for line in lines] == list(LETTERS[:count]), place, "section early-cut-off needs a row for each phase")
    return [times(line, edition, ("E",), line.words[1:])[0] for line in lines]


def order_row(text, count, place):
    """The phases as they run, each once; nothing where there is no such section."""
    letters = [word for line in text.get("order", []) for word in line.words]
    need("order" not in text or sorted(letters) == list(LETTERS[:count]), place, "section order needs each phase once")
    return [LETTERS.index(letter) for letter in letters]


def site_of(path):
    """The site, and the wait bound that its text states."""
    place = path.parent.name
    text = sections_of(path)
    edition, start_red, bound = site_settings(text["site"], place)
    phases = phase_rows(text["phases"], edition, place)
    groups = group_rows(text["groups"], len(phases), place)
    conflicts = conflict_rows(text["conflicts"], groups, place)
    detectors = detector_rows(text["detectors"], len(phases), place)
    check_calls(detectors, groups, len(phases), place)
    walks = walk_rows(text["pedestrians"], edition, groups, place)
    early = early_rows(text, edition, len(phases), groups, place)
    order = order_row(text, len(phases), place)
    return Site(edition, start_red, phases, groups, conflicts, detectors, walks, early, order), bound


# ── The wait bound ──

def walks_in(site, phase):
    return [walk for group, walk in zip(pedestrians_of(site.groups), site.walks) if group.phases >> phase & 1]


def phase_share(site, phase):
    """What one phase adds: L + M + X + 2 × (A + E + Y + R + C)."""
    late, minimum, maximum, _, yellow, red = site.phases[phase]
    walks = walks_in(site, phase)
    walking = max((walk + first for walk, first, _ in walks), default=0)
    clearing = max((second for _, _, second in walks), default=0)
    early = site.early[phase] if site.early else 0
    return late + minimum + maximum + 2 * (walking + early + yellow + red + clearing)


def wait_bound(site):
    return site.start_red + sum(phase_share(site, phase) for phase in range(len(site.phases)))


# ── Bytes ──

def little(value, size):
    return value.to_bytes(size, "little")


def section(kind, body):
    return little(len(body), 2) + little(kind, 2) + body


def packed(rows, size):
    """Every number of the rows in `size` bytes."""
    return b"".join(little(value, size) for row in rows for value in row)


def personality_of(site):
    bodies = [bytes([len(site.phases), len(site.groups)]) + little(site.start_red, 2),
              packed(site.phases, 2),
              packed([(group.phases, group.mark) for group in site.groups], 1),
              packed([site.conflicts], 4),
              packed(site.detectors, 1),
              packed(site.walks, 2)]
    sections = [(SITE_KIND[site.edition], bodies[0])] + list(enumerate(bodies[1:], 2))
    if site.early:
        sections.append((7, packed([site.early], 2)))
    if site.order:
        sections.append((9, bytes(site.order)))
    return b"".join(section(kind, body) for kind, body in sections)


# ── Input scripts ──

FORM = "needs steps, then a detector or a button"


def steps_in(line, last):
    """The steps that a line names: `always`, `12`, `40..45`, `40..400 every 20`."""
    when = line.words[:-2]
    if when == ["always"]:
        return range(1, last + 1)
    need(len(when) == 1 or len(when) == 3 and when[1] == "every", line.place, FORM)
    ends = [whole(line, word) for word in when[0].split("..")]
    every = whole(line, when[2]) if len(when) == 3 else 1
    need(len(ends) <= 2 and every > 0, line.place, f"{' '.join(when)} names no steps")
    need(1 <= ends[0] <= ends[-1] <= last, line.place, f"{when[0]} is not within steps 1 to {last}")
    return range(ends[0], ends[-1] + 1, every)


def bit_of(line, site):
    need(len(line.words) >= 3 and line.words[-2] in ("detector", "button"), line.place, FORM)
    kind, word = line.words[-2:]
    first, count = (0, len(site.detectors)) if kind == "detector" else (FIRST_BUTTON, len(site.walks))
    number = whole(line, word)
    need(number < count, line.place, f"the site has no {kind} {number}")
    return first + number


def steps_of(path, most):
    """The lines of a script, and the number of steps that its first line has."""
    lines = lines_of(path)
    need(lines and lines[0].words[0] == "steps" and len(lines[0].words) == 2, f"{path.parent.name}/{path.name}",
         "its first line is `steps` with their number")
    steps = whole(lines[0], lines[0].words[1])
    need(steps <= most, lines[0].place, f"more than {most} steps")
    return steps, lines[1:]


def inputs_of(path, site):
    """The 64 input bits of each step."""
    last, lines = steps_of(path, MOST["steps"])
    inputs = [0] * last
    for line in lines:
        bit = 1 << bit_of(line, site)
        for step in steps_in(line, last):
            inputs[step - 1] |= bit
    return inputs


def stdin_of(personality, inputs):
    return little(len(personality), 2) + personality + packed([inputs], 8)


# ── Roads ──

def stream_of(line, site):
    """`detector 4 group V3 rate 400`, as 4 bytes."""
    need(len(line.words) == 6 and line.words[::2] == ["detector", "group", "rate"], line.place, "needs a detector, a group and a rate")
    detector, name, rate = whole(line, line.words[1]), line.words[3], whole(line, line.words[5])
    names = [group.name for group in site.groups]
    need(detector < len(site.detectors), line.place, f"the site has no detector {detector}")
    need(name in names and site.groups[names.index(name)].mark != MARKS["pedestrian"], line.place, f"the site has no vehicle group {name}")
    need(rate <= MOST["rate"], line.place, f"the rate is {rate}, more than {MOST['rate']}")
    return little(detector, 1) + little(names.index(name), 1) + little(rate, 2)


def road_of(path, site, personality):
    steps, lines = steps_of(path, MOST["road steps"])
    need(len(lines) <= MOST["streams"], lines[-1].place if lines else path.name, f"more than {MOST['streams']} streams")
    streams = b"".join(stream_of(line, site) for line in lines)
    return little(len(personality), 2) + personality + little(steps, 4) + streams, len(lines)


# ── The phases before one's own ──

def rows_before(site):
    """For each phase a row for NOTE.md: the longest sequence of phases that start before it while a demand of it waits. These are all the others,
    in running order."""
    order = [LETTERS[p] for p in site.order] or list(LETTERS[:len(site.phases)])
    turned = [(order[i], order[i + 1:] + order[:i]) for i in range(len(order))]
    return [f"| {own} | {' '.join(others)} |" for own, others in sorted(turned)]


# ── Commands ──

def accepted_site(path):
    """The site of a text, its personality and its wait bound."""
    site, stated = site_of(path)
    place = f"{path.parent.name}/{path.name}"
    personality = personality_of(site)
    need(verdict(personality) == (0, 0), place, f"the model refuses it with {verdict(personality)}")
    need(wait_bound(site) == stated, place, f"the wait bound is {wait_bound(site)}, not {stated}")
    return site, personality, stated


def without_times(site):
    return site._replace(start_red=0, phases=len(site.phases), walks=len(site.walks), early=len(site.early))


def built(name):
    """The .bin files of a site, by file name, and a line about it."""
    folder = HERE / name
    need((folder / "site.txt").is_file(), name, "there is no such site")
    site, personality, stated = accepted_site(folder / "site.txt")
    files = {"personality.bin": personality}
    told = [f"{name}: {len(personality)} bytes, wait bound {stated}"]
    for path in sorted(folder.glob("site_*.txt")):
        plan, files[path.stem.replace("site", "personality") + ".bin"], stated = accepted_site(path)
        need(without_times(plan) == without_times(site), f"{name}/{path.name}", "it differs from site.txt in more than times")
        told.append(f"{path.name} wait bound {stated}")
    for path in sorted(folder.glob("inputs*.txt")):
        inputs = inputs_of(path, site)
        files[path.stem.replace("inputs", "stdin") + ".bin"] = stdin_of(personality, inputs)
        told.append(f"{path.name} {len(inputs)} steps")
    for path in sorted(folder.glob("road*.txt")):
        files[path.stem + ".bin"], count = road_of(path, site, personality)
        told.append(f"{path.name} {count} streams")
    return files, ", ".join(told)


def write(name):
    files, told = built(name)
    for file, data in files.items():
        (HERE / name / file).write_bytes(data)
    print(told)


def check(name):
    """Whether the files kept are those that would be written, and no others, and the note has the phases before each."""
    files, told = built(name)
    note = (HERE / name / "NOTE.md").read_text(encoding="utf-8").splitlines()
    for row in rows_before(site_of(HERE / name / "site.txt")[0]):
        need(row in note, f"{name}/NOTE.md", f"the row `{row}` is missing")
    kept = {path.name: path.read_bytes() for path in (HERE / name).glob("*.bin")}
    for file in sorted(set(files) | set(kept)):
        need(files.get(file) == kept.get(file), f"{name}/{file}", "not as built")
    print(told)


def main(arguments):
    names = sorted(path.parent.name for path in HERE.glob("*/site.txt"))
    work, names = (check, names) if arguments == ["--check"] else (write, arguments)
    if arguments == ["--check"] and not names:
        print("no folder has a site.txt: nothing was checked")
        return 1
    if not names or any(name.startswith("-") for name in names):
        print(__doc__)
        return 2
    try:
        for name in names:
            work(name)
    except Mistake as mistake:
        print(mistake)
        return 1
    return 0


if __name__ == "__main__":
    sys.exit(main(sys.argv[1:]))
