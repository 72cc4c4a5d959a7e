#!/usr/bin/env python3
"""Works out the core: the definitions that the statements of demands 1 to 3 over bytes reach, each definition for itself.

    python3 docs/core.py --print [STATEMENT]      # the definitions of the core in reading order, with their comments
    python3 docs/core.py --numbers [STATEMENT]    # definitions and lines, by statement and by file, and the longest definitions
    python3 docs/core.py --why NAME               # how a statement reaches the definition of this name, one line for each step
    python3 docs/core.py --self-test              # a small tree with every form of a definition, and mistakes in it; each must be reported

With the name of a statement, as DemandThreeOf, it is what this one reaches.

docs/trusted.py writes the tables of the core into docs/TRUSTED.md and compares them.

A definition is

 - a name in a file of a specs/ folder: its signature and equations, its `infix` line, and the line of a `module` with parameters around it;
 - a record or a data type there, with its fields or variants;
 - a struct or an enum in src/, with its fields or variants and the `#[..]` lines above it;
 - the contract of a function in src/: its lines up to the body.

It reaches what its words mean. A word means what its file defines or takes by a `use` line; a line `pub use` and a renaming by `as` are followed
to the definition itself, and a variant means its type. Fields, as in `s.core` and `record { core = s }`, are no words. A bound name that is also
the name of a definition counts as that: rather too much than too little. Names of the prover's libraries are counted, not followed.

These are mistakes, so that nothing is left out because it was not understood: a line in none of the forms above, a name in a `use` line that
its file does not have, a type of a field that is not found, and a field that no type of the core has.

Lines are counted without comments, blank lines and `use` lines. A line that belongs to several definitions counts once in a sum.
"""
import os
import re
import sys
from collections import namedtuple
from functools import lru_cache

ROOT = os.path.dirname(os.path.dirname(os.path.abspath(__file__)))
PAGE = 'docs/TRUSTED.md'
BEGIN, END = '<!-- core -->', '<!-- end of the core -->'

EXPORTS = 'crates/willowera_c/src/lib.rt'
BOARD = 'crates/proof_board/specs/BoardRuns.antt'

# The statements of each demand over bytes: what it says, and their files and names.
DEMANDS = {
    '1': ('what reading answers to any bytes', [(EXPORTS, 'willowera_read')]),
    '2': ('what the fresh state and a step answer and leave, accepted or refused', [(EXPORTS, 'willowera_fresh'), (EXPORTS, 'willowera_step')]),
    '3': ('every run of the library', [(EXPORTS, 'willowera_retime'), (BOARD, 'BoardDemandThree'), (BOARD, 'BoardStepDemandThree')]),
}
# Demand 3 for itself: what it says of any controller, of lists of all calls and of step calls alone.
ALONE = [('crates/rules/specs/DemandThree.antt', 'DemandThreeOf')]
STEPS_ALONE = [('crates/rules/specs/StepDemandThree.antt', 'StepDemandThreeOf')]

# The headings of TRUSTED.md in reading order. A file below several of them belongs to the first.
LAYERS = ['Types', 'The rules', 'Over bytes', 'Contracts', 'Statements of theorems']

ALL_STATEMENTS = [statement for _, statements in DEMANDS.values() for statement in statements]
STATEMENTS = ALL_STATEMENTS + ALONE + STEPS_ALONE

# `lines` and `remarks` are the numbers of its lines and of the comments above and in it; `text` is its lines without comments.
Definition = namedtuple('Definition', 'path name lines remarks text fields variants')
# `takes`: local name -> Taken.
File = namedtuple('File', 'path definitions takes wrong')
# `source` is a file or a library; `kind` is the type there whose name or variant it is; `passed_on` says that the line is `pub use`.
Taken = namedtuple('Taken', 'source kind name passed_on')
# `ways`: definition -> the one that reaches it first. `outside`: library and name.
Core = namedtuple('Core', 'definitions ways outside wrong')


# ── Words ──

MODIFIERS = r'(?:(?:pub|unfoldable|abbrev|opaque) )*'
MACHINE_TYPES = {'bool', 'u8', 'u16', 'u32', 'u64', 'usize', 'i8', 'i16', 'i32', 'i64', 'f64', 'Option'}


def words_of(text):
    """The words of a definition, without the fields of a record's value and of a projection."""
    return re.findall(r'[^\s(){};,."]+', re.sub(r'([{;]\s*)[^\s(){};,.]+ = |(?<=\S)\.[^\s(){};,.]+|"[^"]*"', r'\1 ', text))


def fields_in(text):
    """The fields that a definition names."""
    return set(re.findall(r'(?<=\S)\.([^\s(){};,.]+)', text)) | {f for inner in re.findall(r'\brecord \{([^{}]*)', text)
                                                               for f in re.findall(r'(?:^|;)\s*([^\s(){};,.]+) = ', inner)}


def parts_of(name):
    """The words of a name with gaps for its arguments: `if`, `then` and `else` of `if◌then◌else◌`."""
    return [part for part in name.split('◌') if part]


def grouped(number):
    return f'{number:,}'


# ── The definitions of a file ──


def code(line, sign):
    """The line without its comment."""
    return re.sub(rf'(^|\s){sign}.*$', '', line).rstrip()


def width(line):
    return len(line) - len(line.lstrip(' '))


def comments(lines, numbers, sign):
    """The numbers of the comment lines just above lines, without a heading, and of those between them."""
    above = numbers[0]
    while above > 0 and re.match(rf' *{sign}(?! ──)', lines[above - 1]):
        above -= 1
    return [n for n in range(above, numbers[-1]) if re.match(rf' *{sign}', lines[n])]


def source_of(crate, rest):
    """The file behind `Rattle.crate.specs.File` or `Rattle.crate.specs.declared.module.Type`, and the type."""
    parts = rest.split('.')
    if parts[0] == 'declared':
        module, kind = parts[1:3] if parts[1][0].islower() else ('lib', parts[1])
        return f'crates/{crate}/src/{module}.rt', kind
    return f'crates/{crate}/specs/{parts[0]}.antt', None


def taken_by(line):
    """What a `use` line takes, by its local names, or None if it is in another form."""
    m = re.fullmatch(r'((?:pub |ghost )?)use ([^{}]+)\.\{([^{}]*)\};?', line)
    source = m and re.fullmatch(r'Rattle\.(?!std\.)(\w+)\.specs\.([\w.]+)', m.group(2))
    if not m or not source and not re.match(r'(Prim|mathlib|lib|Rattle\.std\.(?:specs|proofs\.lemmas))\.', m.group(2)):
        return None
    where = source_of(*source.groups()) if source else (m.group(2), None)
    pairs = [re.split(r' as ', name.strip()) for name in m.group(3).split(',')]
    return {pair[-1]: Taken(*where, pair[0], m.group(1) == 'pub ') for pair in pairs}


@lru_cache(maxsize=None)
def parsed_spec(path, text):
    """A file of a specs/ folder."""
    lines, found, takes, wrong = text.split('\n'), {}, {}, []
    numbers = [n for n, line in enumerate(lines) if code(line, '--').strip()]
    modules, fixed, items, name = [], {}, [], None  # modules: the lines of each one around the next item
    for n in numbers:
        while modules and width(lines[n]) <= width(lines[modules[-1][0]]):
            modules.pop()
        if items and width(lines[n]) > (width(lines[modules[-1][0]]) + 2 if modules else 0):
            items[-1][0].append(n)
            continue
        items.append(([n], [m for module in modules for m in module]))
        if lines[n].strip().startswith('module '):
            modules.append(items[-1][0])
    for own, around in items:
        here = '\n'.join(code(lines[n], '--') for n in own).strip()
        signature = re.match(rf'{MODIFIERS}(\S+)(?: \{{\w+\}})* :\s', here)
        declared = re.match(r'(?:pub )?(record|data) (\S+)(?s:.*?)\swhere$', here, re.M)
        if re.match(r'(pub )?use ', here) and taken_by(here):
            takes.update(taken_by(here))
        elif re.match(r'infix[lr]? \d+ \S+$', here):
            fixed[here.split()[2]] = own
        elif re.match(r'module _ (?s:.*)\swhere$', here):
            pass
        elif declared and not around:
            name = None
            inner = own[declared.group(0).count('\n') + 1:]
            entries = [code(lines[n], '--').partition(' :') if width(lines[n]) == width(lines[inner[0]]) else ('', '', code(lines[n], '--')) for n in inner]
            names = [w for before, _, _ in entries for w in before.split() if w != 'pub']
            kinds = (names, []) if declared.group(1) == 'record' else ([], names)
            says = '\n'.join([declared.group(0), *(after for _, _, after in entries)])
            found[declared.group(2)] = Definition(path, declared.group(2), own, comments(lines, own, '--'), says, *kinds)
        elif signature and signature.group(1) not in found:
            name = signature.group(1)
            parts = [part for part in (around, fixed.get(name, []), own) if part]
            remarks = [n for part in parts for n in comments(lines, part, '--')]
            found[name] = Definition(path, name, sum(parts, []), remarks, '\n'.join(code(lines[n], '--') for part in parts for n in part), [], [])
        elif name and re.search(r'\s=\s', here) and (words_of(here)[0] == name or set(parts_of(name)) <= set(words_of(here)) and '◌' in name):
            old = found[name]
            found[name] = old._replace(lines=old.lines + own, remarks=old.remarks + comments(lines, own, '--'), text=f'{old.text}\n{here}')
        else:
            wrong.append(f'{path}:{own[0] + 1}: not understood: {here.splitlines()[0]}')
    return File(path, found, takes, wrong)


@lru_cache(maxsize=None)
def parsed_source(path, text):
    """A file of src/: its types, and the contracts of its functions."""
    lines, found, takes, wrong = text.split('\n'), {}, {}, []
    bare = [code(line, '//') for line in lines]
    for crate, module, names in re.findall(r'(?m)^use (\w+)::(?:(\w+)::)?(\w+|\{[^{}]*\});$', text):
        for name in re.findall(r'\b[A-Z]\w*[a-z]\w*', names):
            takes[name] = Taken(f'crates/{path.split("/")[1] if crate == "crate" else crate}/src/{module or "lib"}.rt', None, name, False)
    for first, line in enumerate(bare):
        kind, function = re.match(r'(?:pub )?(struct|enum) (\w+) \{$', line), re.match(r' *(?:pub )?(?:extern "C" )?fn (\w+)\(', line)
        if line.startswith('ghost use '):
            takes.update(taken_by(line) or {})
            wrong += [] if taken_by(line) else [f'{path}:{first + 1}: not understood: {line}']
        elif kind:
            above = first
            while bare[above - 1].startswith('#['):
                above -= 1
            last = bare.index('}', first)
            body = '\n'.join(bare[first + 1:last])
            variants = re.findall(r'(?m)^    ([A-Z]\w*)', body) if kind.group(1) == 'enum' else []
            own = [n for n in range(above, last + 1) if bare[n]]
            types = ' '.join(re.findall(r':\s*([^,}\n]+)', body))
            found[kind.group(2)] = Definition(path, kind.group(2), own, comments(lines, own, '//'), types, re.findall(r'(\w+):', body), variants)
        elif function and re.search(r'(?m)^ *\{$', '\n'.join(bare[first:])):
            own = list(range(first, next(n for n in range(first, len(bare)) if bare[n].strip() == '{')))
            above = first - 1 if bare[first - 1].startswith('#[') else first
            remarks = comments(lines, [above, *own], '//')
            found[function.group(1)] = Definition(path, function.group(1), own, remarks, '\n'.join(bare[n] for n in own), [], [])
    return File(path, found, takes, wrong)


# ── What a definition reaches ──


class Tree:
    """The files of the repository, some of them with another text in a self-test, and what is worked out of them."""

    def __init__(self, changed=None):
        self.changed, self.files, self.reached = changed or {}, {}, {}

    def text(self, path):
        if path in self.changed:
            return self.changed[path]
        with open(os.path.join(ROOT, path), encoding='utf-8') as f:
            return f.read()

    def file(self, path):
        if path not in self.files:
            there = path in self.changed or os.path.exists(os.path.join(ROOT, path))
            parsed = parsed_source if path.endswith('.rt') else parsed_spec
            self.files[path] = parsed(path, self.text(path)) if there else File(path, {}, {}, [f'{path}: no such file'])
        return self.files[path]

    def meaning(self, path, name, from_outside=False):
        """The file and the name of the definition behind a name in a file, or the library and the name; or None."""
        file = self.file(path)
        if name in file.definitions:
            return path, name
        for definition in file.definitions.values():
            if name in definition.variants and path.endswith('.antt'):
                return path, definition.name
        taken = file.takes.get(name)
        if taken is None or from_outside and not taken.passed_on:
            return None
        if '/' not in taken.source:
            return taken.source, taken.name
        if taken.kind is None:
            return self.meaning(taken.source, taken.name, True)
        kind = self.file(taken.source).definitions.get(taken.kind)
        return (taken.source, taken.kind) if kind and taken.name in [taken.kind, *kind.variants] else None

    def named_by(self, path):
        """word -> the names that the file knows by it. In src/ a function is none of them: a contract is about specs/ and types."""
        file, known = self.file(path), {}
        own = [d for d in file.definitions.values() if path.endswith('.antt') or d.fields or d.variants]
        for name in [*(d.name for d in own), *file.takes, *(v for d in own for v in d.variants)]:
            for word in {name, *(parts_of(name) if path.endswith('.antt') or not name[0].isalpha() else [])}:
                known.setdefault(word, []).append(name)
        return known

    def reach(self, path, name):
        """What a definition reaches at once, and what is wrong with it."""
        if (path, name) not in self.reached:
            definition, known, wrong = self.file(path).definitions[name], self.named_by(path), []
            words = words_of(definition.text) + (re.findall(r'\w+', definition.text) if path.endswith('.rt') else [])
            means = {n: self.meaning(path, n) for word in words for n in known.get(word, [])}
            wrong += [f'{path}: {name}: nothing has the name {n}' for n, meaning in means.items() if meaning is None]
            if path.endswith('.rt') and (definition.fields or definition.variants):
                strange = set(re.findall(r'[A-Za-z_]\w*', definition.text)) - MACHINE_TYPES - set(known)
                wrong += [f'{path}: {name}: nothing has the name {word}' for word in sorted(strange)]
            self.reached[path, name] = [m for m in dict.fromkeys(means.values()) if m], wrong
        return self.reached[path, name]

    def core(self, statements):
        """All that statements reach."""
        found, ways, outside, wrong, waiting = {}, dict.fromkeys(statements), set(), [], list(statements)
        for path, name in waiting:
            definition = self.file(path).definitions.get(name)
            if definition is None:
                wrong.append(f'{path}: no definition {name}')
                continue
            found[path, name] = definition
            targets, mistakes = self.reach(path, name)
            wrong += mistakes
            outside |= {target for target in targets if '/' not in target[0]}
            for target in targets:
                if target not in ways and '/' in target[0]:
                    ways[target] = (path, name)
                    waiting.append(target)
        fields = {field for d in found.values() for field in d.fields} | {'0', '1', 'now', 'old', 'new'}
        for d in found.values():
            wrong += [f'{d.path}: {d.name}: no type of the core has the field {field}' for field in sorted(fields_in(d.text) - fields)]
        for path in dict.fromkeys(path for path, _ in ways):
            file = self.file(path)
            wrong += file.wrong
            wrong += [f'{path}: it takes {n}, which {t.source} does not have' for n, t in file.takes.items() if self.meaning(path, n) is None]
        return Core(found, ways, outside, list(dict.fromkeys(wrong)))


def lines_of(definitions, remarks=False):
    """How many lines definitions have, each line once."""
    return len({(d.path, n) for d in definitions for n in [*d.lines, *(d.remarks if remarks else [])]})


# ── The tables for the page ──


def reading_order(page):
    """file -> (layer, line of the page), by the tables outside the core."""
    order, heading, inside = {}, '', False
    for number, line in enumerate(page.split('\n')):
        inside = line == BEGIN or inside and line != END
        heading = line[3:] if line.startswith('## ') else heading
        m = re.match(r'\| \[`[^`]+`\]\(\.\./([^)#]+)\)', line)
        if m and not inside:
            here = (LAYERS.index(heading) if heading in LAYERS else len(LAYERS), number, heading)
            order[m.group(1)] = min(order.get(m.group(1), here), here)
    return order


def in_order(core, page):
    """The files of the core in reading order: file, layer, definitions."""
    order, last = reading_order(page), (len(LAYERS) + 1, 0, '')
    files = sorted({path for path, _ in core.definitions}, key=lambda path: (order.get(path, last), path))
    own = lambda path: sorted((d for d in core.definitions.values() if d.path == path), key=lambda d: d.lines[-1])
    return [(path, order.get(path, last)[2], own(path)) for path in files]


def named(statements):
    """Statements as the page names them."""
    functions = [f'`{name}`' for path, name in statements if path.endswith('.rt')]
    contracts = [f'the contract{"s" * (len(functions) > 1)} of {" and ".join(functions)}'] if functions else []
    return ', '.join([f'`{name}`' for path, name in statements if path.endswith('.antt')] + contracts)


def block(page, tree):
    """The lines of the page between the marks, and what is wrong."""
    whole, alone = tree.core(ALL_STATEMENTS), tree.core(ALONE)
    cores = {demand: tree.core(statements) for demand, (_, statements) in DEMANDS.items()}
    counts = lambda found: f'{grouped(len(found))} | {grouped(lines_of(found))}'
    row = lambda what, statements, core: f'| {what} | {statements} | {counts(core.definitions.values())} |'
    rows = ['| Demand | Statements | Definitions | Lines |', '|---|---|---|---|']
    rows += [row(f'{demand}: {says}', named(statements), cores[demand]) for demand, (says, statements) in DEMANDS.items()]
    rows += [row('1 to 3', 'all of these', whole), row('3 for itself, of any controller', named(ALONE), alone)]
    rows += ['', '| File | Layer | Definitions | Lines | Demands |', '|---|---|---|---|---|']
    wrong, files = whole.wrong + alone.wrong, in_order(whole, page)
    for path, layer, found in files:
        demands = ', '.join(demand for demand, core in cores.items() if any(d.path == path for d in core.definitions.values()))
        rows.append(f'| [`{path}`](../{path}) | {layer.lower()} | {counts(found)} | {demands} |')
        wrong += [] if layer else [f'{path}: it has definitions of the core, and {PAGE} does not list it']
    libraries = sorted({library for library, _ in whole.outside})
    uses = ', '.join(f'{sum(there == library for there, _ in whole.outside)} of `{library}`' for library in libraries)
    found = whole.definitions.values()
    rows += ['', f'In all the core has {grouped(len(found))} definitions with {grouped(lines_of(found))} lines, in {len(files)} files. '
             f'It uses {len(whole.outside)} names of the prover\'s libraries: {uses}.']
    return rows, list(dict.fromkeys(wrong))


def filled(page, tree):
    """The page with the tables of the core as the tree has them, and what is wrong."""
    lines = page.split('\n')
    if lines.count(BEGIN) != 1 or END not in lines[lines.index(BEGIN):]:
        return page, [f'{PAGE}: the marks {BEGIN} and {END} are not there once each']
    rows, wrong = block(page, tree)
    return '\n'.join(lines[:lines.index(BEGIN) + 1] + rows + lines[lines.index(END):]), wrong


# ── For a reader ──


def print_core(page, core, tree):
    for path, _, found in in_order(core, page):
        lines, shown = tree.text(path).split('\n'), set()
        print(f'━━ {path}: {len(found)} definitions, {lines_of(found)} lines ━━\n')
        for definition in found:
            numbers = sorted({*definition.lines, *definition.remarks} - shown)
            shown |= set(numbers)
            print('\n'.join(lines[n] for n in numbers) + '\n')
    print(f'In all {grouped(len(core.definitions))} definitions, {grouped(lines_of(core.definitions.values()))} lines.')


def print_numbers(page, core, tree):
    show = lambda what, found: print(f'{len(found):5} {lines_of(found):6} {lines_of(found, True):6}  {what}')
    of = lambda statements: tree.core(statements).definitions
    print('definitions, lines, and lines with the comments above and in definitions\n')
    for demand, (_, statements) in DEMANDS.items():
        show(f'demand {demand}', of(statements).values())
    show('demands 1 to 3', of(ALL_STATEMENTS).values())
    without = of([s for demand, (_, statements) in DEMANDS.items() if demand != '3' for s in statements])
    show('of these only for demand 3', [d for key, d in of(ALL_STATEMENTS).items() if key not in without])
    print()
    for statement in STATEMENTS:
        show(statement[1], of([statement]).values())
    print()
    for path, _, found in in_order(core, page):
        show(path, found)
    print('\nlines of the longest definitions\n')
    for d in sorted(core.definitions.values(), key=lambda d: (-len(d.lines), d.path, d.name))[:25]:
        print(f'{len(d.lines):5}  {d.path}: {d.name}')


def print_why(name, core):
    for key in [key for key in core.definitions if key[1] == name]:
        way = [key]
        while core.ways[way[0]]:
            way.insert(0, core.ways[way[0]])
        for depth, (path, there) in enumerate(way):
            print(f'{"  " * depth}{there}, {path}')


# ── The self-test ──

SAMPLE = {
    'crates/sample/src/kinds.rt': '''// The kinds.

// A kind.
#[marked]
pub enum Kind {
    Plain,
    // with a size
    Sized { size: Size },
}

pub struct Size {
    pub low: u8,
    // and above it
    pub parts: [Part; 2],
}

pub struct Part {
    pub high: u8,
}

pub struct Other {
    pub low: u8,
}
''',
    'crates/sample/src/lib.rt': '''// A contract.
use sample::kinds::Size;
ghost use Rattle.std.specs.Prelude.{◌≡◌};
ghost use Rattle.sample.specs.Top.{size_for as wanted};

#[unsafe(no_mangle)]
pub fn size(kind: u8) -> Size
    ensures { result ≡ wanted kind }
{
    other(kind)
}
''',
    'crates/sample/specs/Types.antt': '''-- Names only.
pub use Rattle.sample.specs.declared.kinds.Kind.{Kind}
pub use Rattle.sample.specs.declared.kinds.Kind.TheVariants.{Plain, Sized}
pub use Rattle.sample.specs.declared.kinds.Size.{Size}
pub use Rattle.sample.specs.declared.kinds.Other.{Other}
''',
    'crates/sample/specs/Base.antt': '''-- Forms.
use Rattle.std.specs.Prelude.{ℕ, ◌+◌}
use Rattle.std.specs.Prelude.{Bool, true, false}
use Rattle.sample.specs.Types.{Kind, Plain, Size, Other}

-- a choice
infix 6 ◌or◌else◌
abbrev pub ◌or◌else◌ : Bool → ℕ → ℕ → ℕ
true or a else b = a
false or a else b = b

-- what belongs together
module _ (n : ℕ) (extra : Extra) where
  unfoldable pub plus : ℕ → ℕ
  plus m =
      n
      -- and what is extra
      + extra.more + m

  unfoldable pub twice : ℕ
  twice = plus n

pub record Extra : Type 0 where
  -- how much
  pub more : ℕ
  pub unused : ℕ

pub data Given : Type 0 where
  nothing : Given
  one : ℕ → Given

unfoldable pub given : Given → Bool
given nothing = false
given (one n) = true

unfoldable pub is_plain : Kind → Bool
is_plain Plain = true
is_plain kind = false

unfoldable pub unused : Other → ℕ
unused other = other.low
''',
    'crates/sample/specs/Top.antt': '''-- The statement.
use Rattle.std.specs.Prelude.{ℕ}
use Rattle.sample.specs.Types.{Size}
use Rattle.sample.specs.Base.{◌or◌else◌, plus, given, one, Extra}

unfoldable pub size_for : ℕ → Size
size_for kind =
    record { low = given (one kind) or plus kind (record { more = 1; unused = 0 }) 2 else 0; parts = [] }
''',
}
SAMPLE_STATEMENT = ('crates/sample/src/lib.rt', 'size')
SAMPLE_CORE = {'size': 2, 'Size': 4, 'Part': 3, 'size_for': 3, '◌or◌else◌': 4, 'plus': 5, 'Extra': 3, 'given': 3, 'Given': 3}


def all_reported(name, count, failures):
    """Says how many of the mistakes that a self-test makes were reported, and names the others; whether all were."""
    for what in failures:
        print(f'{name}: not reported: {what}')
    print(f'{name}: {count} mistakes, {count - len(failures)} reported')
    return not failures


def unreported(reports):
    """The mistakes of which no line has the words that it must: `reports` has for each the lines and the words."""
    return [what for what, (lines, words) in reports.items() if not any(words in line for line in lines)]


def self_test():
    base, types, top, kinds = (f'crates/sample/{name}' for name in ('specs/Base.antt', 'specs/Types.antt', 'specs/Top.antt', 'src/kinds.rt'))

    def reported(path, old, new):
        core = Tree({**SAMPLE, path: SAMPLE[path].replace(old, new)}).core([SAMPLE_STATEMENT])
        return core.wrong + [f'{d.name}: {len(d.lines)} lines' for d in core.definitions.values() if SAMPLE_CORE.get(d.name) != len(d.lines)]

    mistakes = {
        'a definition reached by a new word': (base, 'given nothing = false', 'given nothing = unused', 'unused: 2 lines'),
        'a type reached by a variant': (base, 'given nothing = false', 'given nothing = is_plain Plain', 'Kind: 5 lines'),
        'a longer definition': (base, 'given nothing = false', 'given nothing =\n    false', 'given: 4 lines'),
        'a new field': (kinds, 'pub high: u8,', 'pub high: u8,\n    pub low: u8,', 'Part: 4 lines'),
        'a field of a type that is not found': (kinds, 'pub high: u8', 'pub high: Gone', 'nothing has the name Gone'),
        'a field that no type has': (base, 'extra.more', 'extra.most', 'no type of the core has the field most'),
        'a name that is not passed on': (types, 'pub use Rattle.sample.specs.declared.kinds.Size', 'use Rattle.sample.specs.declared.kinds.Size', 'takes Size'),
        'a name that is gone': (base, 'pub given', 'pub taken', 'takes given'),
        'a variant that is gone': (kinds, 'Plain,', 'Simple,', 'takes Plain'),
        'a file that is gone': (top, 'specs.Base.', 'specs.Gone.', 'Gone.antt does not have'),
        'a `use` line in another form': (top, 'use Rattle.sample.specs.Types.{Size}', 'use Rattle.sample.specs.Types', 'not understood: use'),
        'a definition in another form': (base, 'unfoldable pub given', 'hidden pub given', 'not understood: hidden'),
        'an equation of another name': (base, 'twice = plus', 'thrice = plus', 'not understood: thrice'),
    }
    failures = [what for what, (path, old, new, words) in mistakes.items() if not any(words in line for line in reported(path, old, new))]
    core = Tree(SAMPLE).core([SAMPLE_STATEMENT])
    lengths = {d.name: len(d.lines) for d in core.definitions.values()}
    if core.wrong or lengths != SAMPLE_CORE or len(core.outside) != 6:
        failures.append(f'the sample: {core.wrong}, {lengths}, {sorted(core.outside)}')
    return all_reported('self-test of the core', len(mistakes), failures)


def main(words):
    if words == ['--self-test']:
        return 0 if self_test() else 1
    tree = Tree()
    page, asked = tree.text(PAGE), ALL_STATEMENTS
    if len(words) == 2 and words[0] in ('--print', '--numbers'):
        asked = [statement for statement in STATEMENTS if statement[1] == words[1]]
    core = tree.core(asked)
    if not asked or words[:1] == ['--why'] and not any(name == words[-1] for _, name in core.definitions):
        print(f'{words[1]}: not in the core; its statements are {", ".join(name for _, name in STATEMENTS)}')
        return 1
    if len(words) in (1, 2) and words[0] == '--print':
        print_core(page, core, tree)
    elif len(words) in (1, 2) and words[0] == '--numbers':
        print_numbers(page, core, tree)
    elif len(words) == 2 and words[0] == '--why':
        print_why(words[1], core)
    else:
        print(__doc__)
        return 2
    for line in core.wrong:
        print(line, file=sys.stderr)
    return 1 if core.wrong else 0


if __name__ == '__main__':
    sys.exit(main(sys.argv[1:]))
