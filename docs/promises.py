#!/usr/bin/env python3
"""Holds the README's table of promises to the record of all promises, crates/proof_promises, which the prover checks.

    python3 docs/promises.py                # the exit status is 1 if something is wrong; and the self-test
    python3 docs/promises.py --write        # writes the fields of the record and of the term, as the table has them, and their crates in crates.txt
    python3 docs/promises.py --self-test    # wrong trees in a temporary folder; each must be reported

The prover checks that each theorem in the term of the record has its statement as its type. It does not see whether the documents name the
same ones, or whether one is missing. The rules; a report has the file and the line:

 1. The file of the record has `use` lines that take from specs/, the record `Promises` without parameters, and nothing else. A field is
    `pub the_name : TheName`. Its type is a name that a `use` line takes, and its name is the same in snake case.
 2. Such a name is a statement of the file that it is taken from: `Name : Type n`, without parameters.
 3. The file of the term has `use` lines that take from proofs/, the term `promises : Promises`, and nothing else. It gives each field a
    theorem that a `use` line takes, whose name is that of the statement in small letters with hyphens (or with `_`, where the name was so respelled).
 4. In a row of the README's table each statement is a field, and its theorem, as the term has it, is in the same row. Each theorem of the row
    is that of a statement of the row. A statement with parameters is one for a contract: the row has a function. A link names what is meant,
    and not a file. The crates of the row have its theorems and functions, or use a crate that has them.
 5. Each field is in the table once, and the fields are in the order of the table.
 6. A statement in a specs/ folder for which there is a theorem `its-name : ItsName` is a field, unless its file is internal. So nothing that is
    proved as a promise is left out of the record.
 7. No file in specs/ or src/ of a crate takes anything from a proofs/ folder of this repository: a definition must not cite a proof. (The standard
    library has definitions in its own, as `sets` in `Rattle.std.proofs.lemmas`.)

A name that two crates have is taken with a word of its crate before it: `Admitted as SheetAdmitted`. `--write` keeps such words and the comments
above the fields; above a new row of the table it writes the promise up to its first colon, semicolon or full stop.
"""
import os
import re
import shutil
import sys
import tempfile
from collections import namedtuple

from core import ROOT, all_reported, code
from trusted import cells_of

README = 'README.md'
RECORD = 'crates/proof_promises/specs/Promises.antt'
TERM = 'crates/proof_promises/proofs/Promises.antt'
CRATES = 'crates.txt'
OWN = 'use Rattle.proof_promises.specs.Promises.{Promises}'
TITLES = ['Promise', 'Statement', 'Theorem or contract', 'Crate']

# A statement or a theorem: its file and its name.
Name = namedtuple('Name', 'path name')
# `fields`: field -> (line, statement); `theorems`: field -> (line, theorem); `known`: statement -> the name under which the record takes it.
Promises = namedtuple('Promises', 'fields theorems known wrong')


def hyphenated(statement):
    """PhasesCanBeCalled -> phases-can-be-called, MetIn270 -> met-in-270."""
    return re.sub(r'(?<=[a-z0-9])(?=[A-Z])|(?<=[a-z])(?=[0-9])', '-', statement).lower()


def is_theorem_of(theorem, statement):
    return theorem.replace('_', '-') == hyphenated(statement)


def snake(statement):
    """PhasesCanBeCalled -> phases_can_be_called, MetIn270 -> met_in270."""
    return re.sub(r'(?<=[a-z0-9])(?=[A-Z])', '_', statement).lower()


def small(text):
    return text[0].lower() + text[1:]


class Tree:
    """The files below a folder."""

    def __init__(self, root):
        self.root = root
        self.sources = []
        for crate in sorted(os.listdir(os.path.join(root, 'crates'))):
            for folder in ('src', 'specs', 'proofs'):
                for here, _, files in os.walk(os.path.join(root, 'crates', crate, folder)):
                    self.sources += [os.path.relpath(os.path.join(here, f), root) for f in sorted(files) if f.endswith(('.antt', '.rt'))]
        self.texts = {}

    def text(self, path):
        if path not in self.texts:
            with open(os.path.join(self.root, path), encoding='utf-8') as f:
                self.texts[path] = f.read()
        return self.texts[path]

    def lines(self, path):
        """(number, line without its comment) of each line that has something else."""
        sign = '//' if path.endswith('.rt') else '--'
        bare = ((number, code(line, sign)) for number, line in enumerate(self.text(path).split('\n'), 1))
        return [(number, line) for number, line in bare if line]

    def folder(self, *names):
        return [f for f in self.sources if f.split('/')[2] in names]

    def used_by(self, crates):
        """Crates, and all that they use."""
        uses = {name: rest.split() for name, rest in re.findall(r'(?m)^(\w+)(?: [a-z]+)?:(.*)$', self.text(CRATES))}
        found = list(crates)
        for crate in found:
            found += [other for other in uses.get(crate, []) if other not in found]
        return found

    def statements(self, path):
        """name -> whether it has no parameters, of each type and statement of a file."""
        found = {}
        for name, rest in re.findall(r"(?m)^(?:(?:pub|unfoldable|abbrev|opaque) )*(?:(?:record|data) )?([A-Z][\w'-]*)(.*)$", self.text(path)):
            if re.match(r' .*:', rest) or rest.endswith(' :'):
                found.setdefault(name, re.fullmatch(r' : Type \d(?: where)?', rest) is not None)
        return found


# ── The record and its term ──


def taken(line, folder):
    """local name -> what a `use` line takes from a file of this folder, or None if it is another line."""
    m = re.fullmatch(rf'use Rattle\.(\w+)\.{folder}\.(\w+)\.\{{([^{{}}]*)\}}', line)
    if not m:
        return None
    pairs = [name.strip().split(' as ') for name in m.group(3).split(',')]
    return {pair[-1]: Name(f'crates/{m.group(1)}/{folder}/{m.group(2)}.antt', pair[0]) for pair in pairs}


def promises_of(tree):
    """The record and its term, and what is wrong with them."""
    fields, theorems, wrong, takes = {}, {}, [], {}
    told = lambda path, number, what: wrong.append(f'{path}:{number}: {what}')
    head = False
    for number, line in tree.lines(RECORD):
        field = re.fullmatch(r'  pub (\S+) : (\S+)', line)
        if not head and taken(line, 'specs') is not None:
            takes.update(taken(line, 'specs'))
        elif line == 'pub record Promises : Type 1 where' and not head:
            head = True
        elif head and field and field.group(2) in takes and field.group(1) not in fields:
            statement = takes[field.group(2)]
            fields[field.group(1)] = number, statement
            if field.group(1) != snake(field.group(2)):
                told(RECORD, number, f'the field {field.group(1)} of {field.group(2)} is not called {snake(field.group(2))}')
            if statement.path not in tree.sources or not tree.statements(statement.path).get(statement.name):
                told(RECORD, number, f'{statement.name} is no statement without parameters of {statement.path}')
        else:
            told(RECORD, number, f'neither a `use` line that takes from specs/, nor a field whose type is a statement that one takes: {line.strip()}')
    known = {statement: local for local, statement in takes.items()}
    takes, before, expected = {}, True, ['pub promises : Promises', 'promises =', '    record {']
    for number, line in tree.lines(TERM):
        field = re.fullmatch(r'      (\S+) = (\S+);', line)
        if before and taken(line, 'proofs') is not None:
            takes.update(taken(line, 'proofs'))
        elif before and line == OWN:
            before = False
        elif not before and expected and line == expected[0]:
            expected.pop(0)
        elif not expected and field and field.group(2) in takes and field.group(1) not in theorems:
            theorem = takes[field.group(2)]
            theorems[field.group(1)] = number, theorem
            if field.group(1) not in fields:
                told(TERM, number, f'no field {field.group(1)} in the record')
            elif not is_theorem_of(theorem.name, fields[field.group(1)][1].name):
                told(TERM, number, f'the theorem of {fields[field.group(1)][1].name} is called {hyphenated(fields[field.group(1)][1].name)}, and this is {theorem.name}')
        elif not (theorems and line == '    }'):
            told(TERM, number, f'neither a `use` line that takes from proofs/, nor a field with a theorem that one takes: {line.strip()}')
    for field, (number, _) in fields.items():
        if field not in theorems:
            told(RECORD, number, f'the term has no theorem for the field {field}')
    return Promises(fields, theorems, known, wrong)


# ── The README's table ──

# `statements`: the Names of the second column; `theorems` and `functions`: those of the third that are in proofs/ and in src/.
Row = namedtuple('Row', 'line promise statements theorems functions crates')


def table_of(tree):
    """The rows of the table of promises, and what is wrong with it."""
    rows, wrong, titles, before = [], [], None, ''
    linked = lambda cell: [(name, path) for names, path in re.findall(r'\[([^\]]*)\]\(([^)]*)\)', cell) for name in re.findall(r'`([^`]+)`', names)]
    for number, line in enumerate(tree.text(README).split('\n'), 1):
        if not line.startswith('|'):
            titles = None
        elif re.match(r'\|[-| ]+\|$', line):
            titles = cells_of(before)
        elif titles == TITLES and len(cells_of(line)) != len(TITLES):
            wrong.append(f'{README}:{number}: the row has {len(cells_of(line))} cells, not {len(TITLES)}')
        elif titles == TITLES:
            promise, statement, theorem, crates = cells_of(line)
            names = linked(statement) + linked(theorem)
            wrong += [f'{README}:{number}: the link `{name}` is named after a file: name what it has' for name, path in names if name == os.path.basename(path)]
            of = lambda cell, folder: [Name(path, name) for name, path in linked(cell) if f'/{folder}/' in path and name != os.path.basename(path)]
            rows.append(Row(number, promise, of(statement, 'specs'), of(theorem, 'proofs'), of(theorem, 'src'), re.findall(r'`(\w+)`', crates)))
        before = line
    if not rows:
        wrong.append(f'{README}: no table with the titles {", ".join(TITLES)}')
    return rows, wrong


def compared(tree, promises):
    """What differs between the table and the record."""
    rows, wrong = table_of(tree)
    field_of = {statement: field for field, (_, statement) in promises.fields.items()}
    in_table = {}
    for row in rows:
        told = lambda what: wrong.append(f'{README}:{row.line}: {what}')
        left = list(row.theorems)
        for statement in row.statements:
            parts = tree.statements(statement.path) if statement.path in tree.sources else {}
            if statement.name[0].isupper() and statement.name not in parts:
                told(f'no statement {statement.name} in {statement.path}')
            elif statement.name in parts and not parts[statement.name] and not row.functions:
                told(f'{statement.name} has parameters, so it is for a contract, and the row has no function')
            if not parts.get(statement.name):
                continue
            if statement in in_table:
                told(f'{statement.name} is in the table twice')
            in_table[statement] = row.line
            field = field_of.get(statement)
            theorem = promises.theorems.get(field, (0, None))[1]
            if field is None:
                told(f'{statement.name} is no field of the record; `--write` adds it')
                left = [t for t in left if not is_theorem_of(t.name, statement.name)]
            elif theorem in left:
                left.remove(theorem)
            elif theorem:
                told(f'the theorem of {statement.name} is `{theorem.name}` in {theorem.path}, and the row does not have it')
        for theorem in left:
            told(f'`{theorem.name}` in {theorem.path} is not the theorem of a statement in this row')
        proved = tree.used_by(row.crates)
        for path in dict.fromkeys(name.path for name in row.theorems + row.functions):
            if path.split('/')[1] not in proved:
                told(f'the crates of this row do not use {path.split("/")[1]}, which has {path}')
    for field, (number, statement) in promises.fields.items():
        if statement not in in_table:
            wrong.append(f'{RECORD}:{number}: {statement.name} of {statement.path} is not in the table of {README}')
    order = [field_of[statement] for statement in in_table if statement in field_of]
    fields = [field for field, (_, statement) in promises.fields.items() if statement in in_table]
    for wanted, found in zip(order, fields):
        if wanted != found:
            wrong.append(f'{RECORD}:{promises.fields[found][0]}: {found} is here, and the table of {README} has {wanted} next')
            break
    return wrong


# ── What is proved and not promised; definitions that cite proofs ──


def unpromised(tree, promises):
    fields = {statement for _, statement in promises.fields.values()}
    in_table = {statement for row in table_of(tree)[0] for statement in row.statements}
    theorems = {(name.replace('_', '-'), says) for path in tree.folder('proofs') for name, says in re.findall(r'(?m)^(?:(?:pub|unfoldable|abbrev|opaque) )*([a-z]\S*) : ([A-Z][A-Za-z0-9]*)$', tree.text(path))}
    wrong = []
    for path in tree.folder('specs'):
        if tree.text(path).startswith('-- Internal:') or path == RECORD:
            continue
        for name, closed in tree.statements(path).items():
            if closed and (hyphenated(name), name) in theorems and Name(path, name) not in fields | in_table:
                number = next(n for n, line in tree.lines(path) if re.search(rf'(?<!\S){re.escape(name)} : Type', line))
                wrong.append(f'{path}:{number}: {name} is proved, and neither in the table of {README} nor a field of the record')
    return wrong


def citing(tree):
    """The lines of specs/ and src/ that take something from proofs/."""
    return [f'{path}:{number}: a definition must not cite a proof: {line.strip()}'
            for path in tree.folder('specs', 'src') for number, line in tree.lines(path) if re.search(r'\.proofs\b', re.sub(r'\bRattle\.std\.proofs\.lemmas\.', '', line))]


def check(root):
    """What is wrong in the tree below a folder, and its promises."""
    tree = Tree(root)
    promises = promises_of(tree)
    return promises.wrong + compared(tree, promises) + unpromised(tree, promises) + citing(tree), promises


# ── Writing the record by the table ──


def written(tree, promises):
    """file -> its text with a field for each statement of the table, and what cannot be written."""
    crates = re.findall(r'(?m)^(\w+)(?: [a-z]+)?:', tree.text(CRATES))
    rows, wrong = table_of(tree)
    groups, local = [], {}
    for row in rows:
        group = []
        for statement in row.statements:
            same = [t for t in row.theorems if is_theorem_of(t.name, statement.name)]
            theorem = next((t for t in same if t.path.split('/')[1] == statement.path.split('/')[1]), next(iter(same), None))
            if statement.path not in tree.sources or not tree.statements(statement.path).get(statement.name):
                continue
            if theorem is None or theorem.path.split('/')[1] not in crates:
                wrong.append(f'{README}:{row.line}: no theorem {hyphenated(statement.name)} for {statement.name} in this row')
                continue
            crate = ''.join(word.capitalize() for word in statement.path.split('/')[1].split('_'))
            name = promises.known.get(statement, statement.name)
            local[statement] = crate + name if name in local.values() and statement not in promises.known else name
            group.append((statement, theorem))
        if group:
            groups.append((row, group))
    pairs = [pair for _, group in groups for pair in group]

    def uses(names):
        """The `use` lines: by crate and file, each name as it is called here."""
        files = {}
        for name, called in names:
            files.setdefault(name.path, {})[name.name if called == name.name else f'{name.name} as {called}'] = None
        at = lambda path: (crates.index(path.split('/')[1]), path)
        return ['use Rattle.{}.{}.{}.{{{}}}'.format(*path[:-5].split('/')[1:], ', '.join(files[path])) for path in sorted(files, key=at)]

    old = tree.text(RECORD).split('\n')
    above = {}
    for field, (number, _) in promises.fields.items():
        first = number - 1
        while old[first - 1].startswith('  --'):
            first -= 1
        above[field] = old[first:number - 1]
    head = lambda path: tree.text(path).split('\n')[:next(n for n, line in enumerate(tree.text(path).split('\n')) if line.startswith('use '))]
    record = [*head(RECORD), *uses((s, local[s]) for s, _ in pairs), '', 'pub record Promises : Type 1 where']
    called = {theorem: theorem.name if local[statement] == statement.name else hyphenated(local[statement]) for statement, theorem in pairs}
    term = [*head(TERM), *uses((t, called[t]) for _, t in pairs), OWN, '', 'pub promises : Promises', 'promises =', '    record {']
    for row, group in groups:
        fields = [snake(local[statement]) for statement, _ in group]
        says = small(re.split(r'[:;.](?: |$)', row.promise)[0])
        record += next((above[field] for field in fields if above.get(field)), [f'  -- {says}'])
        record += [f'  pub {field} : {local[statement]}' for field, (statement, _) in zip(fields, group)]
        term += [f'      {field} = {called[theorem]};' for field, (_, theorem) in zip(fields, group)]
    used = sorted({name.path.split('/')[1] for pair in pairs for name in pair}, key=crates.index)
    listed = re.sub(r'(?m)^proof_promises:.*$', f'proof_promises: {" ".join(used)}', tree.text(CRATES))
    return {RECORD: '\n'.join(record) + '\n', TERM: '\n'.join(term) + '\n    }\n', CRATES: listed}, wrong


# ── The self-test ──


def mistakes(tree, promises):
    """what -> (file, old text, new text, words of the report); the old text is in the file."""
    field, (_, statement) = list(promises.fields.items())[0]
    other, (_, another) = list(promises.fields.items())[1]
    theorem = promises.theorems[field][1]
    last = list(promises.fields)[-1]
    line = f'  pub {field} : {statement.name}\n'
    given = f'      {field} = {theorem.name};\n'
    spec = next(f for f in tree.folder('specs') if '\nuse ' in tree.text(f))
    source = next(f for f in tree.folder('src') if '\nghost use ' in tree.text(f))
    parameters = next(f'`{n}`' for row in table_of(tree)[0] for p, n in row.statements if n[0].isupper() and not tree.statements(p)[n])
    row = next(line for line in tree.text(README).split('\n') if parameters in line)
    at = f'({theorem.path})'
    return {
        'a theorem swapped in the README': (README, f'`{theorem.name}`', f'`{promises.theorems[last][1].name}`', f'the theorem of {statement.name} is'),
        'a theorem too many in the README': (README, f'`{theorem.name}`', f'`{theorem.name}`, `no-such-theorem`', '`no-such-theorem` in'),
        'a theorem of the README in another file': (README, at, at.replace('.antt', 'Others.antt'), f'the theorem of {statement.name} is'),
        'a statement left out of the README': (README, f'`{statement.name}`, ', '', f'{statement.name} of {statement.path} is not in the table'),
        'a statement of the README that is not there': (README, f'`{statement.name}`', '`NoSuchStatement`', 'no statement NoSuchStatement'),
        'a statement twice in the README': (README, f'`{statement.name}`', f'`{statement.name}`, `{statement.name}`', 'in the table twice'),
        'a statement with parameters in a row without a function': (README, row, re.sub(r'\[[^\]]*\]\([^)]*/src/[^)]*\),? ?', '', row), 'has parameters'),
        'a link to a file in the README': (README, f'[`{statement.name}`', f'[`{os.path.basename(statement.path)}`, `{statement.name}`', 'is named after a file'),
        'a row with another crate': (README, '| `proof_guarantees` |', '| `laws` |', 'the crates of this row do not use proof_guarantees'),
        'a row with a cell too many': (README, '| `proof_guarantees` |', '| `proof_guarantees` | |', 'the row has'),
        'other titles of the table': (README, '| Statement |', '| Statements |', 'no table'),
        'a field left out of the record and the term': (RECORD, line, '', f'{statement.name} is no field'),
        'a field of another statement': (RECORD, line, f'  pub {field} : {another.name}\n', f'the field {field} of {another.name} is not called'),
        'a field with a premise': (RECORD, line, line.replace(f': {statement.name}', f': ⊥ → {statement.name}'), 'neither a `use` line'),
        'fields in another order': (RECORD, f'{line}  pub {other} : {another.name}\n', f'  pub {other} : {another.name}\n{line}', f'the table of {README} has {field} next'),
        'a record with a premise': (RECORD, 'record Promises :', 'record Promises (never : ⊥) :', 'neither a `use` line'),
        'a statement defined beside the record': (RECORD, '\npub record', f'\nabbrev {statement.name} : Type 0\n{statement.name} = Unit {{0}}\n\npub record', 'neither a `use` line'),
        'a statement taken from proofs': (RECORD, f'{statement.path.split("/")[1]}.specs.', f'{statement.path.split("/")[1]}.proofs.', 'a definition must not cite a proof'),
        'a statement taken from a file without it': (RECORD, f'.{statement.path.split("/")[3][:-5]}.', '.NoSuchFile.', f'{statement.name} is no statement without parameters'),
        'a theorem left out of the term': (TERM, given, '', f'the term has no theorem for the field {field}'),
        'a theorem swapped in the term': (TERM, given, given.replace(theorem.name, promises.theorems[other][1].name), f'the theorem of {statement.name} is called'),
        'a field of the term that is not one': (TERM, given, given.replace(field, 'no_such_field'), 'no field no_such_field'),
        'a proof in the place of a theorem': (TERM, given, given.replace(f'= {theorem.name}', '= refl'), 'neither a `use` line'),
        'a theorem taken from specs': (TERM, f'.proofs.{theorem.path.split("/")[3][:-5]}.', f'.specs.{theorem.path.split("/")[3][:-5]}.', 'neither a `use` line'),
        'a term with a premise': (TERM, 'pub promises : Promises', 'pub promises : ⊥ → Promises', 'neither a `use` line'),
        'a statement that has parameters': (statement.path, f' {statement.name} : Type', f' {statement.name} : ⊥ → Type', f'{statement.name} is no statement without parameters'),
        'a new statement with a theorem': (statement.path, f' {statement.name} : Type', f' {statement.name}New : Type 0\n{statement.name}New = ⊥\nabbrev {statement.name} : Type',
                                           f'{statement.name}New is proved, and neither'),
        'a definition that cites a proof': (spec, '\nuse ', '\nuse Rattle.laws.proofs.Sums.{sum-within}\nuse ', f'{spec}:'),
        'a contract that cites a proof': (source, '\nghost use ', '\nghost use Rattle.laws.proofs.Sums.{sum-within};\nghost use ', f'{source}:'),
    }


def self_test():
    with tempfile.TemporaryDirectory() as root:
        tree = Tree(ROOT)
        for path in [README, CRATES, *tree.sources]:
            os.makedirs(os.path.dirname(os.path.join(root, path)), exist_ok=True)
            shutil.copy(os.path.join(ROOT, path), os.path.join(root, path))
        _, promises = check(root)
        theorem = list(promises.theorems.values())[0][1]
        # a theorem that the mistake "a new statement with a theorem" states
        added = os.path.join(root, theorem.path)
        new = list(promises.fields.values())[0][1].name + 'New'
        with open(added, 'a', encoding='utf-8') as f:
            f.write(f'\npub {hyphenated(new)} : {new}\n')
        known, wrong_trees, failures = set(check(root)[0]), mistakes(tree, promises), []
        for what, (path, old, changed, words) in wrong_trees.items():
            here, text = os.path.join(root, path), tree.text(path)
            if old not in text:
                failures.append(f'{what}: `{old}` is not in {path}')
                continue
            with open(here, 'w', encoding='utf-8') as f:
                f.write(text.replace(old, changed, 1))
            if not any(words in line for line in set(check(root)[0]) - known):
                failures.append(what)
            with open(here, 'w', encoding='utf-8') as f:
                f.write(text)
        # what `--write` makes of a record without a field
        for path in (RECORD, TERM):
            with open(os.path.join(root, path), 'w', encoding='utf-8') as f:
                f.write(re.sub(r'(?m)^ +(?:pub )?board_demand_three .*\n', '', tree.text(path)))
        wrong = Tree(root)
        if written(wrong, promises_of(wrong))[0] != {path: tree.text(path) for path in (RECORD, TERM, CRATES)}:
            failures.append('what is left out of the record and --write does not add')
    return all_reported('self-test', len(wrong_trees), failures)


def main(words):
    if words == ['--self-test']:
        return 0 if self_test() else 1
    if words == ['--write']:
        tree = Tree(ROOT)
        texts, wrong = written(tree, promises_of(tree))
        for line in wrong:
            print(line)
        for path, text in {} if wrong else texts.items():
            with open(os.path.join(ROOT, path), 'w', encoding='utf-8') as f:
                f.write(text)
    elif words:
        print(__doc__)
        return 2
    wrong, promises = check(ROOT)
    for line in wrong:
        print(line)
    print(f'{len(promises.fields)} promises, {len(wrong)} mistakes')
    return 1 if wrong or words != ['--write'] and not self_test() else 0


if __name__ == '__main__':
    sys.exit(main(sys.argv[1:]))
