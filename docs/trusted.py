#!/usr/bin/env python3
"""Keeps docs/TRUSTED.md, the list of all that must be believed, in step with the tree.

    python3 docs/trusted.py --write        # writes the counts of lines and edits into the tables
    python3 docs/trusted.py --check        # the exit status is 1 if a count is not that of the tree, or the list is not complete; and the self-test
    python3 docs/trusted.py --verdicts     # compares what the checks of all crates said last, in target/log, with the page
    python3 docs/trusted.py --self-test    # mistakes made on purpose in the page; each must be reported

A row of a table in TRUSTED.md begins with a link to a file. The script fills the columns with these titles:

    Lines             the lines of the file
    Edits             the must-fail edits that make this file wrong
    Contract lines    the lines of the contracts of the functions that the column Functions names, without their bodies

the line below the mark `<!-- totals -->`, and the tables of the core between their marks, which docs/core.py works out. The list is complete if

 1. each file in a specs/ folder is in a table, or its first line begins with `-- Internal:`, and not both (Lib.antt only lists the others);
 2. what a listed file takes from specs/ or from the types in src/ (its lines `use` and `pub use`) is listed;
 3. what a listed contract takes from specs/ (the names in it), and the types of its parameters and answer, are listed;
 4. each function that the library exports is listed with its contract;
 5. each file in a specs/ folder that the README links to is listed.

The last line of a check is its verdict, `logic=proved` and other words. Each word is on the page in backticks, as it is or up to its `=`. The programs with
`axioms=` are those of the table behind the mark `<!-- axioms -->`, with the same numbers. A library says nothing of axioms, but a static library does: the last
verdict of willowera_c must be that of tools/library.sh, which builds it. The other verdicts are in target/log/proofs, what the last `rt ci` said (or `rt all check`).
It prints none of a crate that an earlier run proved, with the same files, and says so. `rt check` is then asked for the verdict of a program, and a library has none
to compare: `rt ci` itself refuses a verdict with a word that it does not know.
"""
import difflib
import os
import re
import subprocess
import sys

import core
from core import PAGE, ROOT, grouped

TOTALS = '<!-- totals -->'
AXIOMS = '<!-- axioms -->'
LOGS = 'target/log'
STATIC = 'willowera_c'
KEPT = 'proved by an earlier run'


def read(path):
    with open(os.path.join(ROOT, path), encoding='utf-8') as f:
        return f.read()


def files_in(folder, ending):
    found = []
    for here, folders, files in os.walk(os.path.join(ROOT, folder)):
        folders[:] = [f for f in folders if f not in ('target', 'out', '.git')]
        found += [os.path.relpath(os.path.join(here, f), ROOT) for f in files if f.endswith(ending)]
    return sorted(found)


# ── The tables of the page ──


def cells_of(line):
    return [cell.strip() for cell in line.strip().strip('|').split('|')]


def linked_file(cell):
    """The file that the first cell of a row links to."""
    m = re.match(r'\[`[^`]+`\]\(([^)#]+)\)$', cell)
    return os.path.normpath(os.path.join(os.path.dirname(PAGE), m.group(1))) if m else None


def rows_of(page):
    """(line number, titles, cells, file) of each row that begins with a link to a file, outside the core."""
    rows, titles, before, inside = [], None, '', False
    for number, line in enumerate(page.split('\n')):
        inside = line == core.BEGIN or inside and line != core.END
        if inside or not line.startswith('|'):
            titles = None
        elif re.match(r'\|[-| ]+\|$', line):
            titles = cells_of(before)
        elif titles and linked_file(cells_of(line)[0]):
            rows.append((number, titles, cells_of(line), linked_file(cells_of(line)[0])))
        before = line
    return rows


def functions_of(titles, cells):
    return re.findall(r'`(\w+)`', cells[titles.index('Functions')]) if 'Functions' in titles else []


# ── What is counted ──


def edits_by_file():
    """How many must-fail edits change each file."""
    counts = {}
    for edit in files_in('.', '.edit'):
        m = re.search(r'(?m)^file: (\S+)', read(edit))
        crate = edit.split('/')[1] if edit.startswith('crates/') else 'rules'
        if m:
            path = f'crates/{crate}/{m.group(1)}'
            counts[path] = counts.get(path, 0) + 1
    return counts


def contract(path, function):
    """The text of a function from its first line to its body, or None."""
    m = re.search(rf'(?m)^ *(?:pub )?(?:extern "C" )?fn {function}\((?:.*\n)*?(?=^ *\{{$)', read(path))
    return m.group(0) if m else None


def counted(titles, cells, path, edits):
    """The row with its counts, and what is wrong with it."""
    cells, wrong = list(cells), []
    if not os.path.exists(os.path.join(ROOT, path)):
        return cells, [f'no file {path}']
    values = {'Lines': read(path).count('\n'), 'Edits': edits.get(path, 0)}
    if 'Contract lines' in titles:
        texts = {f: contract(path, f) for f in functions_of(titles, cells)}
        wrong += [f'no function {f} in {path}' for f, text in texts.items() if text is None]
        values['Contract lines'] = sum(text.count('\n') for text in texts.values() if text)
    for title, value in values.items():
        if title in titles:
            cells[titles.index(title)] = grouped(value)
    return cells, wrong


def spec_files():
    """The files in specs/ folders, without Lib.antt, which only lists the others."""
    return [f for f in files_in('crates', '.antt') if re.fullmatch(r'crates/\w+/specs/\w+\.antt', f) and not f.endswith('/Lib.antt')]


def is_internal(path):
    return read(path).startswith('-- Internal:')


def totals(rows):
    """The sums over the page."""
    number = lambda titles, cells, title: int(cells[titles.index(title)].replace(',', '') or 0)
    specs = {path: number(t, c, 'Lines') for _, t, c, path in rows if 'Lines' in t and '/specs/' in path}
    types = {path: number(t, c, 'Lines') for _, t, c, path in rows if 'Lines' in t and '/src/' in path and path.startswith('crates/')}
    contracts = [(functions_of(t, c), number(t, c, 'Contract lines')) for _, t, c, _ in rows if 'Contract lines' in t]
    return (f'In all: {len(specs)} files of definitions and statements with {grouped(sum(specs.values()))} lines, {len(types)} files of types with '
            f'{grouped(sum(types.values()))}, and the contracts of {sum(len(f) for f, _ in contracts)} functions with {grouped(sum(n for _, n in contracts))}. '
            f'{sum(map(is_internal, spec_files()))} other files in `specs/` folders are internal.')


def filled(page, tree):
    """The page with its counts and its core as the tree has them, and what is wrong with its rows."""
    page, wrong = core.filled(page, tree)
    lines, edits, rows, strange = page.split('\n'), edits_by_file(), [], []
    for number, titles, cells, path in rows_of(page):
        cells, mistakes = counted(titles, cells, path, edits)
        strange += [f'{PAGE}:{number + 1}: {mistake}' for mistake in mistakes]
        lines[number] = '| ' + ' | '.join(cells) + ' |'
        rows.append((number, titles, cells, path))
    if TOTALS in lines and not strange:
        lines[lines.index(TOTALS) + 1] = totals(rows)
    return '\n'.join(lines), wrong + strange


# ── Whether the list is complete ──


def taken(text):
    """(file, names) of each line that takes names from specs/ or from the types, or passes them on."""
    return [(core.source_of(crate, rest)[0], {n.split(' as ')[-1].strip() for n in names.split(',')})
            for crate, rest, names in re.findall(r'(?m)^(?:ghost |pub )?use Rattle\.(?!std\.)(\w+)\.specs\.([\w.]+)\.\{([^}]*)\}', text)]


def missing(page):
    """What the page does not list, though a promise depends on it; and what it lists, though the file says that it is internal."""
    listed = {path for _, _, _, path in rows_of(page)}
    wrong = []
    for path in spec_files():
        if path in listed and is_internal(path):
            wrong.append(f'{path}: {PAGE} lists it, and its first line says that it is internal')
        if path not in listed and not is_internal(path):
            wrong.append(f'{path}: not in {PAGE}, and its first line does not begin with `-- Internal:`')
        if path in listed:
            wrong += [f'{path}: it takes names from {source}, which {PAGE} does not list' for source, _ in taken(read(path)) if source not in listed]
    promised = set()
    for number, titles, cells, path in rows_of(page):
        for function in functions_of(titles, cells) if os.path.exists(os.path.join(ROOT, path)) else []:
            text = contract(path, function) or ''
            words = set(re.findall(r"[A-Za-z][\w'-]*", text))
            promised.add(function)
            source = read(path)
            cited = [f for f, names in taken(source) if names & words]
            cited += [f'crates/{crate}/src/{module}.rt' for crate, module, names in re.findall(r'(?m)^use (\w+)::(\w+)::(\w+|\{[^{}]*\});', source)
                      if words & set(re.findall(r'\b[A-Z]\w*[a-z]\w*', names))]
            wrong += [f'{path}: the contract of {function} takes names from {f}, which {PAGE} does not list' for f in cited if f not in listed]
    for path in files_in('crates/willowera_c/src', '.rt'):
        for function in re.findall(r'pub extern "C" fn (\w+)', read(path)):
            if function not in promised:
                wrong.append(f'{path}: {PAGE} does not list the exported function {function}')
    for target in re.findall(r'\]\((crates/\w+/specs/\w+\.antt)', read('README.md')):
        if target not in listed:
            wrong.append(f'README.md links to {target}, which {PAGE} does not list')
    return list(dict.fromkeys(wrong))


def check(page, tree):
    right, wrong = filled(page, tree)
    old, new = page.split('\n'), right.split('\n')
    for what, first, last, start, stop in difflib.SequenceMatcher(None, old, new, False).get_opcodes():
        if what != 'equal':
            wrong += [f'{PAGE}:{first + 1}: the tree has: {line}' for line in new[start:stop]]
            wrong += [f'{PAGE}:{n + 1}: the tree does not have: {old[n]}' for n in range(first, last) if start == stop]
    return wrong + missing(page)


# ── Verdicts ──


def log(name):
    path = f'{LOGS}/{name}'
    return read(path) if os.path.exists(os.path.join(ROOT, path)) else ''


def verdict_in(text):
    return (re.findall(r'(?m)^logic=.*$', text) or [''])[-1]


def verdict_of(program):
    """The verdict of a program that an earlier run proved, from a check over what is kept."""
    ran = subprocess.run(['rt', 'check'], cwd=os.path.join(ROOT, 'crates', program), stdin=subprocess.DEVNULL, stdout=subprocess.PIPE, stderr=subprocess.STDOUT,
                         text=True, check=False)
    return verdict_in(ran.stdout) if ran.returncode == 0 else f'`rt check` ended with {ran.returncode}'


def said_of(crates, proofs):
    """crate -> its verdict in what `rt ci` or `rt all check` said, KEPT if an earlier run proved it, or nothing."""
    parts = dict(re.findall(r'(?ms)^== (\w+)\n(.*?)(?=^(?:== |rt: \w+ (?:NOT )?PROVED|rt: \w+ proved)|\Z)', proofs))
    kept = re.findall(r'(?m)^rt: (\w+) is kept: an earlier run on this machine proved|^(\w+): ok$', proofs)
    kept = {name for names in kept for name in names}
    return {crate: verdict_in(parts.get(crate, '')) or (KEPT if crate in kept else '') for crate in crates}


def verdicts():
    """crate -> the last line that its check printed, KEPT, or an empty one."""
    crates = re.findall(r'(?m)^(\w+)(?: [a-z]+)?:', read('crates.txt'))
    said = said_of(crates, log('proofs')) | {STATIC: verdict_in(log(STATIC))}
    programs = [crate for crate in crates if os.path.exists(os.path.join(ROOT, 'crates', crate, 'src', 'main.rt'))]
    return said | {crate: verdict_of(crate) for crate in programs if said[crate] == KEPT}


def judged(page, said):
    """What verdicts say and the page does not, and the other way round."""
    wrong, numbers, sums = [], {}, set()
    for crate, line in said.items():
        if line == KEPT:
            continue
        if not line.startswith('logic=proved '):
            wrong.append(f'{crate}: the crate is not proved: {line or "no check was made"}')
        elif crate == STATIC and ' target=' not in line:
            wrong.append(f'{crate}: this is not the verdict of tools/library.sh')
        words = [word for word in line.split() if not word.startswith(('logic=', 'functions='))]
        strange = [word for word in words if f'`{word}`' not in page and f'`{word.partition("=")[0]}=`' not in page]
        wrong += [f'{crate}: the verdict has {word}, which {PAGE} does not explain' for word in strange]
        numbers |= {crate: word.partition('=')[2] for word in words if word.startswith('axioms=')}
        sums |= {word for word in words if word.startswith('sum=')}
    wrong += [f'{LOGS}: the crates are not proved in one logic: {", ".join(sorted(sums))}'] * (len(sums) > 1)
    rows = re.findall(r'(?m)^\| `(\w+)` \| (\d+) \|', page.partition(AXIOMS)[2].partition('\n\n')[0])
    for crate in [c for c in numbers | dict(rows) if numbers.get(c) != dict(rows).get(c)]:
        wrong.append(f'{PAGE}: axioms of {crate}: the table has {dict(rows).get(crate, "no row")}, the check {numbers.get(crate, "none")}')
    return wrong


# ── The self-test ──


def self_test():
    page, tree = read(PAGE), core.Tree()
    without = lambda path: '\n'.join(line for line in page.split('\n') if f'(../{path})' not in line)
    rows = rows_of(page)
    spec = next(path for _, _, _, path in rows if path.startswith('crates/rules/specs/'))
    kind = next(path for _, _, _, path in rows if path.startswith('crates/rules/src/'))
    function = next(f for _, titles, cells, path in rows if path.startswith('crates/willowera_c/') for f in functions_of(titles, cells))
    internal = next(f for f in spec_files() if is_internal(f))
    passing = next(f for f in spec_files() if '\npub use Rattle.' in read(f) and not re.search(r'\npub use Rattle\.std\.', read(f)))
    passed = taken(read(passing))[0][0]
    wrong_count = re.sub(r'(?m)^(\| \[`[^|]*\| )(\d)', lambda m: m.group(1) + str((int(m.group(2)) + 1) % 10), page, count=1)
    core_row = next(line for line in page[page.index(core.BEGIN):].split('\n') if line.startswith('| [`'))
    mistakes = {
        'a count that is not that of the file': (wrong_count, 'the tree has'),
        'a file of definitions that is not listed': (without(spec), f'{spec}: not in {PAGE}'),
        'a file of types that is not listed': (without(kind), f'{kind}, which {PAGE} does not list'),
        'a file of types that a `pub use` line passes on': (without(passed), f'{passing}: it takes names from {passed}'),
        'an exported function that is not listed': (page.replace(f'`{function}`', ''), f'exported function {function}'),
        'a function that is gone': (page.replace(f'`{function}`', '`no_such_function`'), 'no function no_such_function'),
        'a file that is gone': (page.replace(f'(../{spec})', '(../crates/rules/specs/NoSuchFile.antt)'), 'no file'),
        'an internal file in a table': (page + f'\n| File | Lines |\n|---|---|\n| [`x`](../{internal}) | 1 |\n', 'internal'),
        'a row of the core left out': (page.replace(core_row + '\n', ''), f'the tree has: {core_row}'),
        'a row too many in the core': (page.replace(core_row, f'{core_row}\n{core_row}'), f'the tree does not have: {core_row}'),
        'a count of the core that is not that of the tree': (page.replace('In all the core has ', 'In all the core has 1'), 'the tree has: In all the core has'),
        'the marks of the core left out': (page.replace(core.BEGIN, ''), 'the marks'),
        'a file of the core that no table lists': (without(core.BOARD), f'{core.BOARD}: it has definitions of the core'),
    }
    path, name = core.BOARD, 'BoardDemandThree'
    text = tree.text(path)
    ending = text.split('\n')[tree.file(path).definitions[name].lines[-1]]
    first = re.search(r'\nuse Rattle\.(?!std\.)[^{]*\{(\w+)', text)
    added = '\nunfoldable pub added_here : Type 0\nadded_here = Unit {0}\n'
    changes = {
        'a definition that a statement of the core cites now': (text.replace(ending, f'{ending} × added_here') + added, 'the tree has: In all the core has'),
        'a longer definition of the core': (text.replace(ending, f'{ending}\n    × Unit {{0}}'), 'the tree has: In all the core has'),
        'a name in the core that nothing has': (text[:first.start(1)] + 'NoSuchName as ' + text[first.start(1):], f'it takes {first.group(1)}, which'),
        'a statement that is gone': (text.replace(f' {name} :', ' OtherName :'), f'no definition {name}'),
    }
    words = dict.fromkeys(re.findall(r'`([a-z-]+=[a-z,]+)`', page.partition('### What a verdict takes over')[2].partition(AXIOMS)[0]))
    rows = dict(re.findall(r'(?m)^\| `(run_\w+)` \| (\d+) \|', page))
    said = {'laws': f'logic=proved functions=0 sum=1 {" ".join(words)}', STATIC: f'logic=proved functions=1 target=x sum=1 {" ".join(words)}'}
    said |= {c: f'logic=proved functions=1 axioms={n} target=x sum=1 {" ".join(words)}' for c, n in rows.items()}
    program = next(iter(rows))
    sayings = {
        'verdicts as the page has them': (said, None),
        'verdicts, and a library that an earlier run proved': (said | {'rules': KEPT}, None),
        'a verdict with a word that the page does not explain': (said | {'laws': f'{said["laws"]} cache=trusted'}, 'cache=trusted'),
        'a verdict with another value of a word': (said | {'laws': said['laws'].replace('native=nat', 'native=nat,float')}, 'native=nat,float'),
        'a crate that is proved in another logic': (said | {'laws': said['laws'].replace('sum=1', 'sum=2')}, 'not proved in one logic'),
        'a crate that is not proved': (said | {'laws': 'logic=not-proved'}, 'the crate is not proved'),
        'a crate without a check': (said | {'laws': ''}, 'no check was made'),
        'a static library of which only the source was checked': (said | {STATIC: said['laws']}, 'not the verdict of'),
        'a static library with axioms': (said | {STATIC: f'{said[STATIC]} axioms=1'}, f'axioms of {STATIC}'),
        'another number of axioms': (said | {program: said[program].replace('axioms=', 'axioms=1')}, f'axioms of {program}'),
        'axioms of another crate': (said | {'laws': f'{said["laws"]} axioms=1'}, 'axioms of laws: the table has no row'),
        'a row without axioms': (said | {program: said['laws']}, f'axioms of {program}'),
    }
    proofs = '== laws\n{0} a\nrt: laws proved\nrt: {1} is kept: an earlier run on this machine proved the same files\n== rules: its tests\n{0} b\n'
    if said_of(['laws', 'rules', 'board'], proofs.format('logic=proved', 'rules')) != {'laws': 'logic=proved a', 'rules': KEPT, 'board': ''}:
        sayings['what rt ci says'] = (said, 'what rt ci says is not read as it is')
    reports = {what: (check(text, tree), words) for what, (text, words) in mistakes.items()}
    reports |= {what: (judged(page, lines) if words else [] if judged(page, lines) else [what], words or what) for what, (lines, words) in sayings.items()}
    reports |= {what: (check(page, core.Tree({path: text})), words) for what, (text, words) in changes.items()}
    return core.all_reported('self-test', len(reports), core.unreported(reports))


def main(words):
    if words == ['--self-test']:
        return 0 if self_test() else 1
    page, tree = read(PAGE), core.Tree()
    if words == ['--write']:
        page, wrong = filled(page, tree)
        with open(os.path.join(ROOT, PAGE), 'w', encoding='utf-8') as f:
            f.write(page)
        wrong += missing(page)
    elif words == ['--check']:
        wrong = check(page, tree)
    elif words == ['--verdicts']:
        said = verdicts()
        wrong = judged(page, said)
        print(f'{sum(line.startswith("logic=") for line in said.values())} verdicts, {sum(line == KEPT for line in said.values())} crates proved by an earlier run')
    else:
        print(__doc__)
        return 2
    for line in wrong:
        print(line)
    print(f'{len(rows_of(page))} rows, {len(wrong)} mistakes')
    return 1 if wrong or words == ['--check'] and not (core.self_test() and self_test()) else 0


if __name__ == '__main__':
    sys.exit(main(sys.argv[1:]))
