#!/usr/bin/env python3
"""Makes wrong definitions of the rules by fixed changes of their text, one at a time, and finds what refuses each.

    must-fail-rules/mutants.py --list [--file State]               # the wrong definitions
    must-fail-rules/mutants.py --run [--file State] [--jobs N]     # tries those that have no result; may be stopped and started again
    must-fail-rules/mutants.py --run --again                       # tries again what no worked case has refused, as after adding one
    must-fail-rules/mutants.py --run --cases-only                  # the worked cases of one call alone
    must-fail-rules/mutants.py --compute [--again]                 # finds a case that fails by evaluate.py, in minutes; --run then confirms it
    must-fail-rules/mutants.py --figures [--write]                 # the figures; with --write also into SURVIVORS.md
    must-fail-rules/mutants.py --left                              # what no worked case refuses, with what does

The changes: a number one more or one less; `leb` for `ltb` and the other way; `eqb` made `leb`, either way round; a test turned round (`not` left
out, `true` for `false`); a part of `&&` or `||` left out; a check of `or_else` left out; two neighbouring checks of `or_else` exchanged.

Each is tried in a copy of the crates, in this order, up to the first refusal:

 1. the worked cases of one call: crates/rules (proofs/*Cases.antt)
 2. the worked cases that are runs: proof_cases
 3. the theorems and the code that use the file, as the table USERS has them

The results are in target/mutants/results.txt, a line for each: the result, what refused it, and the change.

    case          a worked case, as its list and its number in it
    theorem, code a proof of another crate, at its first error; `shape` if the error speaks only of the proof's shape, by the messages of run.sh
    computed      a worked case that fails by evaluate.py. --run has the prover try this case alone, before all others
    passed        no worked case fails by evaluate.py
    left          nothing that was tried refuses it
    no-program    the prover cannot read it as definitions

--figures also names the rows of SURVIVORS.md that explain nothing any more.
"""
import argparse
import contextlib
import hashlib
import os
import re
import shutil
import subprocess
import sys
import tempfile
import threading

import evaluate

HERE = os.path.dirname(os.path.abspath(__file__))
ROOT = os.path.dirname(HERE)
RESULTS = os.path.join(ROOT, 'target', 'mutants', 'results.txt')
PAGE = os.path.join(HERE, 'SURVIVORS.md')
GROUND = 'use Rattle.std.specs.Prelude.{'

# The files of definitions, and the crates that are likeliest to refuse a wrong one, cheapest first.
USERS = {
    'Limits': ['base_limits', 'proof_acceptance', 'sheet_settings'],
    'Verdicts': ['read_sections', 'proof_acceptance', 'read_groups'],
    'Personality': ['read_layout', 'read_sections', 'read_groups', 'read_detectors', 'read_order', 'read_callers', 'read_early', 'read_time_sections', 'read_conflicts', 'read_personality', 'proof_acceptance'],
    'Site': ['site_rows', 'base_intervals', 'site_whole', 'proof_acceptance', 'step_colours'],
    'Lookup': ['read_lookup', 'board_read'],
    'IntervalTable': ['base_intervals', 'proof_runs', 'state_bytes'],
    'State': ['step_valid', 'state_fresh', 'proof_validity', 'state_valid'],
    'SiteTimes': ['state_times', 'proof_change', 'proof_time_bytes', 'state_valid'],
    'Demands': ['step_demands_detectors', 'step_demands_ring', 'step_demands_buttons', 'step_demands', 'proof_kept', 'proof_waits'],
    'Movements': ['step_movements', 'proof_clearance', 'proof_waits'],
    'Counts': ['step_counts', 'proof_waits'],
    'Interval': ['step_interval', 'proof_validity', 'proof_waits'],
    'Walks': ['step_walks', 'proof_waits'],
    'Step': ['proof_runs', 'step_whole'],
    'Kept': ['proof_kept', 'step_demands', 'step_valid', 'step_whole'],
    'Timed': ['proof_change', 'step_change', 'state_fresh', 'state_valid'],
    'Colours': ['step_colours', 'proof_clearance'],
    'WaitBound': ['wait_bound_movements', 'wait_bound', 'proof_waits'],
    'Waits': ['wait_turns', 'wait_each', 'proof_waits', 'proof_wait_cases'],
    'Call': ['proof_runs', 'step_valid', 'board_answers', 'board_step'],
    'TimedCall': ['proof_time_bytes', 'board_retime'],
}

# The worked cases that are likeliest to see a wrong definition. The others come after them.
SEEN_BY = {
    'ReadingCases': ['Verdicts', 'Personality'],
    'LimitCases': ['Limits'],
    'StateCases': ['IntervalTable', 'State', 'Kept'],
    'StepCases': ['IntervalTable', 'Kept', 'Demands', 'Movements', 'Counts', 'Interval', 'Walks', 'Step'],
    'AnswerCases': ['Site', 'Lookup', 'Colours', 'WaitBound', 'Waits', 'Call'],
    'TimedCases': ['SiteTimes', 'Timed', 'TimedCall'],
}

# ── The text of a definition ──


def spec(name):
    return os.path.join('crates', 'rules', 'specs', name + '.antt')


def bodies_of(text):
    """(name, start, end) of the right-hand side of each clause of each definition that is no statement."""
    at, places = 0, []
    for line in text.splitlines(keepends=True):
        places.append((at, line))
        at += len(line)
    i = 0
    while i < len(places):
        head = re.match(r'( *)(?:unfoldable|abbrev) (?:pub )?(\S+)', places[i][1])
        if not head:
            i += 1
            continue
        indent, name, signature = head.group(1), head.group(2), places[i][1]
        i += 1
        while places[i][1].startswith(indent + ' '):
            signature += places[i][1]
            i += 1
        clauses = []
        while i < len(places) and places[i][1].startswith(indent) and places[i][1].strip() and not re.match(r' *(--|unfoldable|abbrev|pub|infix)', places[i][1]):
            if places[i][1].startswith(indent + ' '):
                clauses[-1][1] = places[i][0] + len(places[i][1])
            else:
                clauses.append([places[i][0], places[i][0] + len(places[i][1])])
            i += 1
            while i < len(places) and re.match(indent + r' +--', places[i][1]):
                i += 1
        if re.search(r'→\s+Type 0\s*$', signature) or re.search(r':\s+Type 0\s*$', signature):
            continue
        for start, end in clauses:
            yield name, start + re.search(r'\s=\s', text[start:end]).end(), end


TOKEN = re.compile(r"--[^\n]*|λ[^.]*\.(?=\s)|[(){};,]|[^\s(){};,]+")
ENDS = {';', ',', '=', 'if', 'then', 'else', 'let', 'in'}


def tokens_of(text, start, end):
    return [(m.group(), m.start(), m.end()) for m in TOKEN.finditer(text, start, end) if not m.group().startswith('--')]


def chains_of(tokens):
    """The chains of one operator at one depth: the operator, and the first and last token of each part."""
    stack, first = [], 0
    operators, found = [], []

    def close(last):
        nonlocal operators
        kinds = {tokens[o][0] for o in operators}
        # a chain of both is one of `||` whose parts may be chains of `&&`
        for kind in ('||', '&&', 'or_else'):
            if kind not in kinds:
                continue
            outer = [o for o in operators if tokens[o][0] == ('||' if '||' in kinds and kind == '&&' else kind)]
            bounds = [first - 1] + outer + [last + 1]
            if kind == '&&' and '||' in kinds:
                for left, right in zip(bounds, bounds[1:]):
                    inner = [o for o in operators if left < o < right and tokens[o][0] == '&&']
                    if inner:
                        found.append(('&&', parts(left + 1, inner, right - 1)))
            else:
                found.append((kind, parts(first, outer, last)))
        operators = []

    def parts(left, cuts, right):
        edges = [left - 1] + cuts + [right + 1]
        return [(a + 1, b - 1) for a, b in zip(edges, edges[1:])]

    for i, (token, _, _) in enumerate(tokens):
        if token in '({':
            stack.append((first, operators))
            first, operators = i + 1, []
        elif token in ')}':
            close(i - 1)
            first, operators = stack.pop()
        elif token in ENDS or token.startswith('λ'):
            close(i - 1)
            first = i + 1
        elif token in ('&&', '||', 'or_else'):
            operators.append(i)
    close(len(tokens) - 1)
    return found


def atom(tokens, i):
    """The last token of the argument that begins at token i: a field stands right behind what it is taken of."""
    if tokens[i][0] not in '({':
        return i
    depth = 0
    for j in range(i, len(tokens)):
        depth += (tokens[j][0] in '({') - (tokens[j][0] in ')}')
        if depth == 0:
            return j + (tokens[j + 1 : j + 2] != [] and tokens[j + 1][0].startswith('.'))


# ── The changes ──


class Mutant:
    def __init__(self, file, name, kind, start, end, new, text, needs=None):
        self.file, self.name, self.kind, self.start, self.end, self.new, self.needs = file, name, kind, start, end, new, needs
        self.old = text[start:end]

    def applied(self, text):
        text = text[: self.start] + self.new + text[self.end :]
        if self.needs and not re.search(r'\b%s\b' % self.needs, text[text.index(GROUND) :].split('\n')[0]):
            text = text.replace(GROUND, GROUND + self.needs + ', ', 1)
        return text


def changes_of(file, text):
    for name, start, end in bodies_of(text):
        tokens = tokens_of(text, start, end)

        def whole(a, b):
            return text[tokens[a][1] : tokens[b][2]]

        def change(kind, a, b, new, needs=None):
            return Mutant(file, name, kind, tokens[a][1], tokens[b][2], new, text, needs)

        for i, (token, _, _) in enumerate(tokens):
            if token.isdigit():
                yield change('one more', i, i, str(int(token) + 1))
                if int(token):
                    yield change('one less', i, i, str(int(token) - 1))
            elif token in ('leb', 'ltb'):
                other = 'ltb' if token == 'leb' else 'leb'
                yield change('strictness', i, i, other, other)
            elif token == 'eqb':
                a = atom(tokens, i + 1)
                b = atom(tokens, a + 1)
                one, two = whole(i + 1, a), whole(a + 1, b)
                if two != '0':
                    yield change('equality', i, b, 'leb %s %s' % (one, two), 'leb')
                if one != '0':
                    yield change('equality', i, b, 'leb %s %s' % (two, one), 'leb')
            elif token in ('true', 'false'):
                other = 'false' if token == 'true' else 'true'
                yield change('turned round', i, i, other, other)
            elif token == 'not':
                b = atom(tokens, i + 1)
                yield change('turned round', i, b, whole(i + 1, b))
        for operator, parts in chains_of(tokens):
            for k, (a, b) in enumerate(parts):
                left, right = parts[0][0], parts[-1][1]
                rest = [whole(*p) for j, p in enumerate(parts) if j != k]
                yield change('part of %s left out' % operator, left, right, (' %s ' % operator).join(rest))
            if operator == 'or_else':
                for k in range(len(parts) - 1):
                    (a, b), (c, d) = parts[k], parts[k + 1]
                    yield change('checks exchanged', a, d, '%s or_else %s' % (whole(c, d), whole(a, b)))


def shortened(old, new):
    """What differs, with a few characters before and behind it."""
    old, new = ' '.join(old.split()), ' '.join(new.split())
    a = 0
    while a < min(len(old), len(new)) and old[a] == new[a]:
        a += 1
    b = 0
    while b < min(len(old), len(new)) - a and old[-1 - b] == new[-1 - b]:
        b += 1

    def piece(s):
        left, right = s.rfind(' ', 0, max(0, a - 12)) + 1, s.find(' ', len(s) - max(0, b - 12))
        return ('.. ' if left else '') + (s[left:right] + ' ..' if right > 0 else s[left:])

    return piece(old), piece(new)


def all_mutants(only=None):
    """The wrong definitions, each with a key that says what it is."""
    mutants, seen = [], {}
    for file in USERS:
        if only and file != only:
            continue
        with open(os.path.join(ROOT, spec(file)), encoding='utf-8') as f:
            text = f.read()
        for m in changes_of(file, text):
            line = text[text.rindex('\n', 0, m.start) + 1 : text.index('\n', m.end)]
            inner = text[text.rindex('\n', 0, m.start) + 1 : m.start], text[m.end : text.index('\n', m.end)]
            old, new = shortened(line, inner[0] + m.new + inner[1])
            key = '%s.%s | %s | %s | %s' % (file, m.name, m.kind, old, new)
            seen[key] = seen.get(key, 0) + 1
            m.key = key if seen[key] == 1 else '%s (%d)' % (key, seen[key])
            mutants.append(m)
    return mutants


# ── Trying one ──

SHAPE = ('has no field', 'no occurrence', 'has no `', 'is not in scope')
RESTS = ('was rejected', 'was not admitted')


def errors_in(log, crate):
    """(file, line, column, message) of each error of a crate that is not only about what rests on another one."""
    found = re.finditer(r'^(?:\./)?(\S+):(\d+):(\d+): error:?(.*)$', log, re.M)
    return [(os.path.join('crates', crate, m.group(1)), int(m.group(2)), int(m.group(3)), m.group(4)) for m in found if not any(r in m.group(4) for r in RESTS)]


class Room:
    """A copy of the crates. Its checks begin with what those of the tree kept."""

    def __init__(self):
        self.root = tempfile.mkdtemp(prefix='mutants')
        shutil.copytree(os.path.join(ROOT, 'crates'), os.path.join(self.root, 'crates'), ignore=shutil.ignore_patterns('out', 'must-fail'))
        shutil.copy(os.path.join(ROOT, 'crates.txt'), self.root)

    def close(self):
        shutil.rmtree(self.root)

    def check(self, crate):
        """What a check of a crate comes to: the exit status, the crate that is refused (this one, or one that it uses) if one is, its errors, and the last line."""
        run = subprocess.run(['rt', 'check', '--jobs', '1'], cwd=os.path.join(self.root, 'crates', crate), stdout=subprocess.PIPE, stderr=subprocess.STDOUT)
        log = run.stdout.decode('utf-8', 'replace')
        below = re.search(r'^rt: the library (\w+) did not build', log, re.M)
        name = below.group(1) if below else crate
        refused = name if run.returncode == 1 and re.search(r'^logic=not-proved', log, re.M) else None
        return run.returncode, refused, errors_in(log, name), log.strip().splitlines()[-1]

    def read(self, part, name):
        with open(os.path.join(self.root, 'crates', 'rules', part, name), encoding='utf-8') as f:
            return f.read()

    def write(self, part, name, text):
        with open(os.path.join(self.root, 'crates', 'rules', part, name), 'w', encoding='utf-8') as f:
            f.write(text)

    def put(self, file, text):
        self.write('specs', file + '.antt', text)

    def cases_named(self, errors):
        """The worked cases at which these errors are, as LIST:NUMBER, counted from 1."""
        named = []
        for path, line, column, _ in errors:
            with open(os.path.join(self.root, path), encoding='utf-8') as f:
                text = f.read().splitlines()
            cases = [w for w in text[line - 2].split() if re.search('_(cases|parts)$', w)]
            before = text[line - 1][: column - 1].count('refl')
            named.append('%s:%d' % (cases[0], before + 1))
        return named

    def refused_at(self, case):
        """Whether this case alone refuses what stands in the room, at the case."""
        cases, number = case.split(':')
        file = next(f for f in os.listdir(os.path.join(ROOT, 'crates', 'rules', 'specs')) if f.endswith('Cases.antt') and re.search(r'\b%s : ' % cases, self.read('specs', f)))
        proof = self.read('proofs', file)
        uses = [line for line in proof.splitlines() if line.startswith('use ') and '.%s.{' % file[:-5] not in line and 'CallCases' not in line]
        opens = re.search(r'^unfolding (.*\b%s\b)' % cases, proof, re.M).group(1)
        first = uses + [
            'use Rattle.std.specs.Prelude.{take, drop}',
            'use Rattle.rules.specs.CallCases.{CallHolds, AllHold}',
            'use Rattle.rules.specs.%s.{%s}' % (file[:-5], cases),
            'first : AllHold CallHolds (take 1 (drop %d %s))' % (int(number) - 1, cases),
            'unfolding ' + opens,
            'first = (refl, tt)',
        ]
        only = {'Opened.antt': self.read('proofs', 'Opened.antt'), 'First.antt': '\n'.join(first) + '\n', 'Lib.antt': 'pub mod Opened\npub mod First\n'}
        with self.proofs(only):
            errors = self.check('rules')[2]
        return bool(errors) and all(e[0].endswith('First.antt') and e[1] == len(first) for e in errors)

    @contextlib.contextmanager
    def proofs(self, files):
        """Other files in the place of the proofs of the rules."""
        whole, aside = os.path.join(self.root, 'crates', 'rules', 'proofs'), os.path.join(self.root, 'aside')
        os.rename(whole, aside)
        try:
            os.mkdir(whole)
            for name, text in files.items():
                self.write('proofs', name, text)
            yield
        finally:
            shutil.rmtree(whole)
            os.rename(aside, whole)

    def proofs_without_cases(self):
        names = [f for f in os.listdir(os.path.join(self.root, 'crates', 'rules', 'proofs')) if not f.endswith('Cases.antt')]
        files = {name: self.read('proofs', name) for name in names}
        files['Lib.antt'] = re.sub(r'pub mod \w*Cases\n', '', files['Lib.antt'])
        return files

    def judged(self, mutant, cases_only, first):
        """(result, what refused it)"""
        with open(os.path.join(ROOT, spec(mutant.file)), encoding='utf-8') as f:
            text = f.read()
        self.put(mutant.file, mutant.applied(text))
        try:
            if first and self.refused_at(first):
                return 'case', first
            status, _, errors, last = self.check('rules')
            if any('/specs/' in e[0] for e in errors) or (status and not errors):
                return 'no-program', (errors or [('', 0, 0, last)])[0][3].strip()
            at_cases = [e for e in errors if e[0].endswith('Cases.antt')]
            if at_cases:
                return 'case', ' '.join(self.cases_named(at_cases))
            if cases_only:
                return 'left', 'by the worked cases of one call'
            if errors:
                return ('shape' if any(s in errors[0][3] for s in SHAPE) else 'theorem'), 'rules, %s:%d' % errors[0][:2]
            with self.proofs(self.proofs_without_cases()):
                return self.judged_by(['proof_cases'] + USERS[mutant.file])
        finally:
            self.put(mutant.file, text)

    def judged_by(self, crates):
        """The first of these crates, or of those that they use, that refuses what stands in the room. Its worked cases have accepted it."""
        for crate in crates:
            status, name, errors, last = self.check(crate)
            if not name:
                if status:
                    return 'no-program', last
                continue
            place = '%s, %s' % (name, '%s:%d' % errors[0][:2] if errors else 'no place')
            if name == 'proof_cases':
                return 'case', name
            if errors and any(s in errors[0][3] for s in SHAPE):
                return 'shape', place
            return 'theorem' if name.startswith('proof_') else 'code', place
        return 'left', 'by all'


# ── The results ──


def results():
    """key: (result, what refused it); a later line counts."""
    found = {}
    if os.path.exists(RESULTS):
        with open(RESULTS, encoding='utf-8') as f:
            for line in f:
                result, by, key = line.rstrip('\n').split('\t')
                found[key] = (result, by)
    return found


def note(result, by, mutant):
    with open(RESULTS, 'a', encoding='utf-8') as f:
        f.write('%s\t%s\t%s\n' % (result, by[:160].replace('\t', ' '), mutant.key))


def compute(mutants):
    os.makedirs(os.path.dirname(RESULTS), exist_ok=True)
    rules = evaluate.Rules()
    for m in mutants:
        text = evaluate.read(spec(m.file))
        rules.put(m.file, m.applied(text))
        case = next(rules.failing(sorted(evaluate.CASES, key=lambda c: m.file not in SEEN_BY.get(c, []))), None)
        rules.put(m.file, text)
        note('computed' if case else 'passed', case or 'all cases', m)


def run(mutants, jobs, cases_only, first):
    os.makedirs(os.path.dirname(RESULTS), exist_ok=True)
    lock, todo, total = threading.Lock(), list(reversed(mutants)), len(mutants)

    def work():
        room = Room()
        try:
            room.check('rules')
            while True:
                with lock:
                    if not todo:
                        return
                    mutant = todo.pop()
                result, by = room.judged(mutant, cases_only, first.get(mutant.key))
                with lock:
                    note(result, by, mutant)
                    print('%d/%d %s, %s: %s' % (total - len(todo), total, result, by[:80], mutant.key), flush=True)
        finally:
            room.close()

    workers = [threading.Thread(target=work) for _ in range(jobs)]
    for w in workers:
        w.start()
    for w in workers:
        w.join()


# ── The page ──

BEGIN, END = '<!-- figures -->', '<!-- end of figures -->'


def explained():
    """The changes that the page explains, as (definition, old, new)."""
    rows = set()
    if os.path.exists(PAGE):
        with open(PAGE, encoding='utf-8') as f:
            for line in f.read().split(END)[-1].splitlines():
                cells = [c.strip() for c in re.split(r'(?<!\\)\|', line.strip().strip('|'))]
                if len(cells) == 4 and re.match(r'`\w+\.\S+`$', cells[0]):
                    rows.add(tuple(c.strip('`').replace('\\|', '|') for c in cells[:3]))
    return rows


def row_of(mutant):
    definition, _, old, new = re.sub(r' \(\d+\)$', '', mutant.key).replace('||', '\0').split(' | ')
    return definition, old.replace('\0', '||'), new.replace('\0', '||')


COLUMNS = ['Made', 'No program', 'A case of one call', 'of these confirmed by the prover', 'A run of `proof_cases`', 'A theorem', 'Code', 'Explained below', 'Else']


def column_of(mutant, found, pages):
    result, by = found.get(mutant.key, ('untried', ''))
    if result == 'no-program':
        return 'No program'
    if result == 'case':
        return 'A run of `proof_cases`' if by == 'proof_cases' else 'A case of one call'
    if result == 'computed':
        return 'A case of one call'
    if row_of(mutant) in pages:
        return 'Explained below'
    return {'theorem': 'A theorem', 'code': 'Code'}.get(result, 'Else')


def figures(mutants):
    found, pages = results(), explained()
    table = {file: dict.fromkeys(COLUMNS, 0) for file in list(USERS) + ['all']}
    for m in mutants:
        for row in (table[m.file], table['all']):
            row['Made'] += 1
            row[column_of(m, found, pages)] += 1
            row['of these confirmed by the prover'] += found.get(m.key, ('', ''))[0] == 'case' and ':' in found[m.key][1]
    lines = ['| File | %s |' % ' | '.join(COLUMNS), '|---' * (len(COLUMNS) + 1) + '|']
    lines += ['| `%s` | %s |' % (file, ' | '.join(str(row[c]) for c in COLUMNS)) for file, row in table.items()]
    whole = table['all']
    programs, seen = whole['Made'] - whole['No program'], whole['A case of one call'] + whole['A run of `proof_cases`']
    lines += ['', 'Worked cases refuse %d of the %d that are programs, which is %.1f %%; without the explained ones, %.1f %%.' % (seen, programs, 100 * seen / max(1, programs), 100 * seen / max(1, programs - whole['Explained below']))]
    rest = [m for m in mutants if column_of(m, found, pages) in ('A theorem', 'Code', 'Else')]
    if rest:
        lines += ['', 'The others that no case refuses:', '', '| Definition | Old | New | Refused by |', '|---|---|---|---|']
        for m in rest:
            result, by = found.get(m.key, ('untried', ''))
            crate, place = by.split(', ')[:2] if ', ' in by else (by, '')
            refused = '`%s`, `%s`' % (crate, place.split('/')[-1].split('.')[0]) if result in ('theorem', 'code') else result
            lines.append('| %s | %s |' % (' | '.join('`%s`' % c.replace('|', '\\|') for c in row_of(m)), refused))
    return '\n'.join(lines)


def stale(mutants):
    """The rows of the page that explain no wrong definition, or only such as a case refuses."""
    found, rows = results(), {}
    for m in mutants:
        rows.setdefault(row_of(m), []).append(found.get(m.key, ('untried',))[0])
    return [row for row in explained() if all(result in ('case', 'computed') for result in rows.get(row, []))]


def main():
    parser = argparse.ArgumentParser(description=__doc__, formatter_class=argparse.RawDescriptionHelpFormatter)
    for word in ('--list', '--run', '--again', '--compute', '--cases-only', '--figures', '--write', '--left'):
        parser.add_argument(word, action='store_true')
    parser.add_argument('--file', choices=list(USERS))
    parser.add_argument('--jobs', type=int, default=1)
    words = parser.parse_args()
    mutants, found = all_mutants(words.file), results()
    if words.list:
        for m in mutants:
            print(m.key)
    if words.compute:
        compute([m for m in mutants if words.again and found.get(m.key, ('',))[0] != 'case' or m.key not in found])
        found = results()
    if words.run:
        done = ('case', 'no-program') if words.again else ('case', 'no-program', 'theorem', 'code', 'shape', 'left')
        first = {key: by.split()[0] for key, (result, by) in found.items() if result == 'computed'}
        todo = [m for m in mutants if found.get(m.key, ('',))[0] not in done]
        # spread over the files, so that a part of the run is a sample
        run(sorted(todo, key=lambda m: hashlib.sha256(m.key.encode()).digest()), words.jobs, words.cases_only, first)
    if words.left:
        for m in mutants:
            result, by = found.get(m.key, ('untried', ''))
            if result not in ('case', 'computed', 'no-program'):
                print('%s, %s: %s' % (result, by, m.key))
    if words.figures:
        text = figures(mutants)
        print(text)
        if words.write:
            with open(PAGE, encoding='utf-8') as f:
                page = f.read()
            with open(PAGE, 'w', encoding='utf-8') as f:
                f.write(page[: page.index(BEGIN) + len(BEGIN)] + '\n' + text + '\n' + page[page.index(END) :])
        rows = stale(mutants) if not words.file else []
        for row in rows:
            print('SURVIVORS.md explains what is not left: %s: %s, %s' % row)
        return 1 if rows else 0


if __name__ == '__main__':
    sys.exit(main())
