#!/usr/bin/env python3
"""Finds every public function whose contract does not equate the whole of its outcome, and compares them with a table in docs/DECISIONS.md.

    python3 docs/open_outcomes.py --list         # a line for each: function, what is not equated, and by what the contract goes
    python3 docs/open_outcomes.py --check        # the exit status is 1 if the table is not that of the tree; and the self-test
    python3 docs/open_outcomes.py --self-test    # wrong trees and wrong tables made on purpose; each must be reported

The outcome of a function is its answer and what it leaves in each `&mut` parameter. Every `pub fn` in crates/*/src counts, exported or not. A part of the
outcome is equated if a conjunct of an `ensures` is an equation with this part alone, or a record of such parts, on its left side:

    result ≡ ..    result.now ≡ ..    x.new ≡ .. (or x.exit.now ≡ ..)    record { answer = result; state = x.new } ≡ ..

and nothing of the outcome on its right side. An answer that is a struct is also equated if each of its fields is, as in `result.verdict ≡ ..`. An equation
behind a premise or a quantifier does not count.

The other parts are open. A row of the table stands for functions whose contracts go by the same means: a relation (a record or an `abbrev` of specs/) with its
fields, a premise, or nothing. Its cells are the means, the functions, what the contract fixes, and what stays open with what holds of it. The script compares
the first two with the tree and asks that the others are not empty. So a field that is taken out of a relation is reported as well as a new function.
"""
import re
import sys
from collections import namedtuple

import core
import trusted
from core import Tree, code

PAGE = 'docs/DECISIONS.md'
BEGIN, END = '<!-- open outcomes -->', '<!-- end of the open outcomes -->'
TITLES = ['By', 'Functions', 'It fixes', 'It leaves open']
PREMISE, NOTHING = 'a premise', 'nothing'

# `outcome`: its parts, as a contract names them. `facts`: the fact of each `ensures`.
Function = namedtuple('Function', 'path name label answer outcome facts')
# `parts`: those that are open. `by`: the means, as the table has them.
Open = namedtuple('Open', 'function parts by')

OPENING, CLOSING = '([{', ')]}'


# ── Contracts ──


def close_of(text, start):
    """The place of the bracket that closes the one at a place."""
    depth = 0
    for at in range(start, len(text)):
        depth += (text[at] in OPENING) - (text[at] in CLOSING)
        if depth == 0:
            return at
    raise ValueError('a bracket is not closed')


def split(text, sign):
    """The parts of a text between the signs that stand in no bracket."""
    parts, at, start = [], 0, 0
    while at < len(text):
        if text[at] in OPENING:
            at = close_of(text, at)
        elif text.startswith(sign, at):
            parts.append(text[start:at].strip())
            start = at + len(sign)
        at += 1
    return [*parts, text[start:].strip()]


def bare(text):
    """The text without brackets around all of it."""
    text = ' '.join(text.split())
    while text.startswith('(') and close_of(text, 0) == len(text) - 1:
        text = text[1:-1].strip()
    return text


def fact_of(clause):
    """The fact of a clause, or None of one that speaks of memory."""
    fact = bare(clause)
    return fact if fact and not re.search(r'[⌜⌝∗]|-∗|[∀∃∧∨→]ₛ', fact) else None


def functions_in(path, text):
    """The public functions of a file, and what is not understood in it."""
    text = '\n'.join(code(line, '//') for line in text.split('\n'))
    module = '' if re.search(r'/(lib|main)\.rt$', path) else re.search(r'(\w+)\.rt$', path).group(1) + '::'
    found, wrong = [], []
    for m in re.finditer(r'(?m)^ *pub (?:extern "C" )?fn (\w+)(?:<(?:->|[^<>])*>)?\(', text):
        label = f'{path.split("/")[1]}::{module}{m.group(1)}'
        end = close_of(text, m.end() - 1)
        lent = re.findall(r"(\w+): &(?:'\w+ )?mut ", text[m.end():end])
        answer = re.match(r'\s*->\s*(.+?)\s*(?=\n *(?:requires|ensures|ghost)\b|\n *\{|\{)', text[end + 1:])
        at, facts = end + 1 + (answer.end() if answer else 0), []
        while clause := re.match(r'\s*(requires|ensures|ghost)(?: \w+)?:?\s*\{', text[at:]):
            last = close_of(text, at + clause.end() - 1)
            if clause.group(1) == 'ensures':
                facts.append(fact_of(text[at + clause.end():last]))
            at = last + 1
        if not re.match(r'\s*\{', text[at:]) or None in facts:
            wrong.append(f'{path}: the contract of {label} is in a form that is not understood')
        outcome = ['answer'] * bool(answer) + lent
        found.append(Function(path, m.group(1), label, answer.group(1) if answer else None, outcome, [fact for fact in facts if fact]))
    return found, wrong


def conjuncts(fact):
    """The parts of a fact that hold without a premise; one that has a premise or a quantifier stays whole."""
    fact = bare(fact)
    parts = split(fact, '×')
    return [fact] if len(split(fact, '→')) > 1 or len(parts) == 1 else [c for part in parts for c in conjuncts(part)]


def part_of(term):
    """The part of the outcome that a term is: 'answer', 'answer.field', or a parameter; or None."""
    term = bare(term)
    m = re.fullmatch(r'(\w+)\.(?:new|exit\.now)', term)
    if m:
        return m.group(1)
    m = re.fullmatch(r'result(?:\.now)?(\.\w+)?', term)
    return 'answer' + (m.group(1) or '') if m else None


def parts_in(term):
    """The parts of the outcome that an equation with this term on its left side equates."""
    term = bare(term)
    if re.match(r'record \{', term) and term.endswith('}'):
        inner = term[term.index('{') + 1:-1]
        return [p for field in split(inner, ';') if field for p in parts_in(field.partition(' = ')[2])]
    part = part_of(term)
    return [part] if part else []


def speaks_of(text, part):
    """Whether a text names a part of the outcome."""
    return bool(re.search(rf'\b{part}\.(?:new|exit)\b' if part != 'answer' else r"(?<![\w.])result(?![\w'-])", text))


# ── What a contract leaves open ──


def equated(function):
    """The parts of the outcome that the contract equates."""
    found = set()
    for fact in function.facts:
        for conjunct in conjuncts(fact):
            sides = split(conjunct, '≡')
            if len(split(conjunct, '→')) == 1 and len(sides) == 2 and not any(speaks_of(sides[1], part) for part in function.outcome):
                found |= set(parts_in(sides[0]))
    return found


def fields_of(tree, path, name):
    """The fields of a record or a struct, by its name in a file."""
    meaning = tree.meaning(path, name)
    definition = meaning and '/' in meaning[0] and tree.file(meaning[0]).definitions.get(meaning[1])
    return definition.fields if definition else []


def means(tree, function, parts):
    """By what the contract says something of these parts, as the table has it."""
    found = []
    for fact in function.facts:
        for conjunct in conjuncts(fact):
            if not any(speaks_of(conjunct, part) for part in parts):
                continue
            relation = re.match(r'[A-Z]\w*', conjunct)
            if len(split(conjunct, '→')) > 1:
                found.append(PREMISE)
            elif relation and len(split(conjunct, '≡')) == 1:
                fields = fields_of(tree, function.path, relation.group(0))
                found.append(f'`{relation.group(0)}`' + (f' ({", ".join(f"`{f}`" for f in fields)})' if fields else ''))
    return ', '.join(dict.fromkeys(found)) or NOTHING


def open_in(tree, function):
    """The function with what it leaves open, or None."""
    done = equated(function)
    fields = fields_of(tree, function.path, function.answer or '')
    if fields and all(f'answer.{field}' in done for field in fields):
        done.add('answer')
    parts = [part for part in function.outcome if part not in done]
    return Open(function, parts, means(tree, function, parts)) if parts else None


def all_open(tree, added=()):
    """Those of the tree, how many public functions it has, and what is not understood."""
    found, count, wrong = [], 0, []
    for path in [*(f for f in trusted.files_in('crates', '.rt') if re.match(r'crates/\w+/src/', f)), *added]:
        functions, strange = functions_in(path, tree.text(path))
        found += [o for o in (open_in(tree, f) for f in functions) if o]
        count, wrong = count + len(functions), wrong + strange
    return found, count, wrong


# ── The table ──


def rows_of(page):
    """(line number, cells) of each row of the table, and what is wrong with the table."""
    lines = page.split('\n')
    if lines.count(BEGIN) != 1 or lines.count(END) != 1:
        return [], [f'{PAGE}: the marks {BEGIN} and {END} do not stand there once each']
    rows = [(n + 1, trusted.cells_of(lines[n])) for n in range(lines.index(BEGIN), lines.index(END)) if lines[n].startswith('|')]
    wrong = [] if rows and rows[0][1] == TITLES else [f'{PAGE}: the table of open outcomes does not have the titles {", ".join(TITLES)}']
    return rows[2:], wrong


def check(page, tree, added=()):
    """What is different between the table and the tree."""
    found, count, wrong = all_open(tree, added)
    rows, strange = rows_of(page)
    wrong += strange
    told, left = {}, {o.function.label: o for o in found}
    for number, cells in rows:
        if len(cells) != len(TITLES) or not all(cells):
            wrong.append(f'{PAGE}:{number}: the row does not have the {len(TITLES)} cells {", ".join(TITLES)}, or one of them is empty')
            continue
        for label in re.findall(r'`([\w:]+)`', cells[1]):
            if label in told:
                wrong.append(f'{PAGE}:{number}: {label} is also in line {told[label]}')
            elif label not in left:
                wrong.append(f'{PAGE}:{number}: {label} leaves nothing open, or is no public function: the row has it too much')
            elif left[label].by != cells[0]:
                wrong.append(f'{PAGE}:{number}: the contract of {label} goes by {left[label].by}, and the row says {cells[0]}')
            told[label] = number
    wrong += [f'{o.function.path}: the contract of {o.function.label} leaves open: {", ".join(o.parts)} (by {o.by}); {PAGE} has no row for it'
              for o in found if o.function.label not in told]
    return wrong, found, count


# ── The self-test ──


def self_test():
    page, tree = trusted.read(PAGE), Tree()
    rows = [line for line in page[page.index(BEGIN):page.index(END)].split('\n') if line.startswith('| `')]
    label = re.search(r'`(\w+::[\w:]+)`', rows[0]).group(1)
    exports, pairs, cells = core.EXPORTS, 'crates/read_sections/src/records.rt', 'crates/road_step/specs/OnRoad.antt'
    bytes_, new = 'crates/base_bytes/src/lib.rt', 'crates/base_bytes/src/added.rt'

    def changed(path, *pairs):
        text = tree.text(path)
        for old, other in pairs:
            if old not in text:
                raise ValueError(f'{path}: no text {old}')
            text = text.replace(old, other, 1)
        return Tree({path: text})

    one = '{ result ≡ byte_at s.now i }'
    last = '× (colours.new ≡ colours_after'
    trees = {
        'an equation dropped from a contract': (changed(exports, (last, '× (length colours.new ≡ colours_after')), 'willowera_step leaves open: colours'),
        'an equation behind a premise': (changed(bytes_, (one, '{ i < 5 → result ≡ byte_at s.now i }')), 'base_bytes::byte_at leaves open: answer (by a premise)'),
        'an equation behind a quantifier': (changed(bytes_, (one, '{ (k : ℕ) → result ≡ byte_at s.now i }')), 'base_bytes::byte_at leaves open'),
        'an equation of the answer with itself': (changed(bytes_, (one, '{ result ≡ result }')), 'base_bytes::byte_at leaves open: answer (by nothing)'),
        'a relation in the place of an equation': (changed(bytes_, (one, '{ SomeByte s.now i result }')), 'base_bytes::byte_at leaves open: answer (by `SomeByte`)'),
        'a field of an answer without its equation': (changed(pairs, ('× (result.second ≡ byte_at', '× (result.second ≤ byte_at')), 'read_sections::records::pair_at leaves open'),
        'a field taken out of a relation': (changed(cells, ('  pub rest : ', '  -- ')), 'the contract of road_step::road_steps goes by `Further` (`same`, `road`)'),
        'a contract in another form': (changed(bytes_, (one, '{ ⌜ result ≡ 0 ⌝ ∗ ⌜ result ≡ 0 ⌝ }')), 'not understood'),
    }
    function = 'pub fn added(bytes: &mut [u8], lent: &[u8]) -> u8 {\n    bytes[0]\n}\n'
    pages = {
        'a row left out': (page.replace(rows[0] + '\n', ''), f'the contract of {label} leaves open'),
        'a row too many': (page.replace(rows[0], f'{rows[0]}\n| nothing | `base_bytes::byte_at` | - | - |'), 'base_bytes::byte_at leaves nothing open'),
        'a function in two rows': (page.replace(rows[0], f'{rows[0]}\n{rows[0]}'), f'{label} is also in line'),
        'a row with another relation': (page.replace(rows[0], re.sub(r'^\| `\w+`', '| `NoSuchRelation`', rows[0])), f'the contract of {label} goes by'),
        'a row that does not say what is open': (page.replace(rows[0], rows[0][:rows[0].rstrip('| ').rindex('|')] + '| |'), 'one of them is empty'),
        'the marks left out': (page.replace(BEGIN, ''), 'the marks'),
    }
    reports = {what: (check(page, other)[0], words) for what, (other, words) in trees.items()}
    reports |= {what: (check(other, tree)[0], words) for what, (other, words) in pages.items()}
    reports['a function without a contract'] = check(page, Tree({new: function}), [new])[0], 'base_bytes::added::added leaves open: answer, bytes (by nothing)'
    return core.all_reported('self-test', len(reports), core.unreported(reports))


def main(words):
    if words == ['--self-test']:
        return 0 if self_test() else 1
    if words not in (['--list'], ['--check']):
        print(__doc__)
        return 2
    wrong, found, count = check(trusted.read(PAGE), Tree())
    if words == ['--list']:
        for o in found:
            print(f'{o.function.label}: {", ".join(o.parts)}: by {o.by}')
        print(f'{count} public functions, {len(found)} of them leave something open')
        return 0
    for line in wrong:
        print(line)
    print(f'{count} public functions, {len(found)} of them in the table of open outcomes, {len(wrong)} mistakes')
    return 1 if wrong or not self_test() else 0


if __name__ == '__main__':
    sys.exit(main(sys.argv[1:]))
