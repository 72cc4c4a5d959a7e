#!/usr/bin/env python3
"""Computes the worked cases of one call in Python, from the text of the definitions in crates/*/specs.

    must-fail-rules/evaluate.py        # computes every case; prints how many, and those that fail

It reads the language of those files as far as they use it, and knows nothing of types. It is no check: mutants.py asks it for a case that a wrong
definition fails, and has the prover confirm it.

A number is a Python number, a test a bool, a list a tuple, a record a dict, a variant a tuple of its name and its parts. A definition with n patterns is a
function of n arguments; as a value, or with fewer arguments, it takes them one by one.
"""
import os
import re
import sys

ROOT = os.path.dirname(os.path.dirname(os.path.abspath(__file__)))
RULES = ['Limits', 'Verdicts', 'Personality', 'Site', 'Lookup', 'IntervalTable', 'State', 'SiteTimes', 'Demands', 'Movements', 'Counts', 'Interval', 'Walks', 'Step', 'Kept', 'Timed', 'Colours', 'WaitBound', 'Waits', 'Call', 'TimedCall']
BESIDE = ['TraceText', 'Junctions', 'Runs']
CASES = {
    'CallCases': ['call_cases'],
    'ReadingCases': ['head_cases', 'body_cases'],
    'LimitCases': ['limit_cases'],
    'StateCases': ['position_cases', 'demand_cases', 'movement_cases'],
    'StepCases': ['demand_parts', 'movement_parts', 'interval_parts', 'walk_parts'],
    'AnswerCases': ['input_cases', 'colour_cases', 'answer_cases'],
    'TimedCases': ['timed_cases'],
}

sys.setrecursionlimit(100000)


def read(path):
    with open(os.path.join(ROOT, path), encoding='utf-8') as f:
        return f.read()


# ── What the definitions are written in ──


def put(values, i, value):
    return values[:i] + (value,) + values[i + 1 :] if i < len(values) else values


# by name: how many arguments, and the function
GROUND = {
    'eqb': (2, lambda a, b: a == b),
    'leb': (2, lambda a, b: a <= b),
    'ltb': (2, lambda a, b: a < b),
    'not': (1, lambda a: not a),
    'suc': (1, lambda n: n + 1),
    'max': (2, max),
    'min': (2, min),
    'length': (1, len),
    'take': (2, lambda n, a: a[:n]),
    'drop': (2, lambda n, a: a[n:]),
    'get_or': (3, lambda a, i, other: a[i] if i < len(a) else other),
    'set': (3, put),
    'replicate': (2, lambda n, x: (x,) * n),
    'map': (2, lambda f, a: tuple(map(f, a))),
    'ascii': (1, lambda text: tuple(text.encode())),
    'decimal': (1, lambda n: tuple(str(n).encode())),
}

# how tightly each operator binds, whether it binds to the right, and what it is in Python
OPERATORS = {
    'or_else': (5, True, '(lambda v: v if v[0] == "Err" else {1})({0})'),
    '≡': (20, False, '({0} == {1})'),
    '||': (30, True, '({0} or {1})'),
    '&&': (35, True, '({0} and {1})'),
    '∷': (60, True, '(({0},) + {1})'),
    '++': (60, True, '({0} + {1})'),
    '+': (65, False, '({0} + {1})'),
    '-': (65, False, 'max(0, {0} - {1})'),
    '*': (70, False, '({0} * {1})'),
    '/': (70, False, '({0} // {1})'),
    '%': (70, False, '({0} % {1})'),
    '^': (75, True, '({0} ** {1})'),
}
# operators of the cases with words before and between their arguments: gap n max m, locks ps buttons ks
WORDS = {'gap': ('max', '{{"gap": {0}, "maximum": {1}}}'), 'locks': ('buttons', '{{"locks": {0}, "buttons": {1}}}')}
NOT_READ = {'gap◌max◌', 'locks◌buttons◌', '◌or_else◌'}


def one_by_one(function, count, given=()):
    if len(given) == count:
        return function(*given)
    return lambda argument: one_by_one(function, count, given + (argument,))


def python_name(name):
    return 'v_' + ''.join(c if c.isalnum() else '_%x' % ord(c) for c in name)


def variants_in_code():
    """How many parts each variant of the types in src/ has, and of the library's Option and Result."""
    found = {'None': 0, 'Some': 1, 'Ok': 1, 'Err': 1, 'tt': 0}
    for file in ('answer', 'site', 'state'):
        text = re.sub(r'//[^\n]*', '', read('crates/rules/src/%s.rt' % file))
        for body in re.findall(r'enum \w+ \{(.*?)\n\}', text, re.S):
            for name, parts in re.findall(r'(\w+)\s*(\{[^}]*\})?,', body):
                found[name] = len(re.findall(r'\w+:', parts))
    return found


# ── Reading a file ──

# a field, `.name`, stands right behind what it is taken of; the names of a λ end in a point
TOKEN = re.compile(r'--[^\n]*|"[^"]*"|[(){};,]|(?<=\S)\.[A-Za-z]\w*|λ|[^\s(){};,.]+(?:\.(?=\s))?')


def tokens_of(text):
    return [t for t in TOKEN.findall(text) if not t.startswith('--')]


class Module:
    """The definitions of a file: their clauses, where the names that they use come from, and the variants that the file declares."""

    def __init__(self, name, text, whole=True):
        self.name, self.clauses, self.uses, self.variants, self.given = name, {}, {}, {}, {}
        for path, names in re.findall(r'^(?:pub )?use (\S+?)\.\{(.*?)\}$', text, re.M):
            self.uses.update({n.strip(): path.split('.')[-1] for n in names.split(',')})
        for body in re.findall(r'^pub data \w+ : .*?where\n((?:  .*\n)+)', text, re.M):
            for variant, of in re.findall(r'^  (\w+) : (.*)$', body, re.M):
                self.variants[variant] = of.count('→')
        lines, i, given = text.splitlines(), 0, []
        while i < len(lines):
            block = re.match(r'module _ (.*) where', lines[i])
            if block:
                given = [n for names in re.findall(r'\(([^:)]*) :', block.group(1)) for n in names.split()]
            elif re.match(r'[^ -]', lines[i]):
                given = []
            head = re.match(r'( *)(?:unfoldable|abbrev) (?:pub )?(\S+)', lines[i])
            i += 1
            if not head:
                continue
            (indent, name), signature = head.groups(), lines[i - 1]
            while lines[i].startswith(indent + ' '):
                signature += '\n' + lines[i]
                i += 1
            clauses = []
            while i < len(lines) and lines[i].strip() and lines[i].startswith(indent) and not re.match(r' *(--|unfoldable|abbrev|pub|infix)', lines[i]):
                if lines[i].startswith(indent + ' '):
                    clauses[-1] += '\n' + lines[i]
                else:
                    clauses.append(lines[i])
                i += 1
                while i < len(lines) and re.match(indent + r' +--', lines[i]):
                    i += 1
            # statements are left out, but for what a case states
            if name == 'CallHolds' or name not in NOT_READ and (whole or name in ('controller_of', 'by_rules')) and not re.search(r'[→:]\s+Type 0$', signature):
                self.clauses[name] = [self.sides(c) for c in clauses]
                self.given[name] = given if indent else []

    @staticmethod
    def sides(clause):
        """The patterns of a clause, each as its tokens, and the tokens of its right-hand side."""
        left, right = re.split(r'\s=\s', clause, maxsplit=1)
        tokens, patterns, i = tokens_of(left), [], 1
        while i < len(tokens):
            if tokens[i] == '(':
                end = tokens.index(')', i)
                patterns.append(tokens[i + 1 : end])
                i = end + 1
            else:
                patterns.append([tokens[i]])
                i += 1
        return patterns, tokens_of(right)

    def count(self, name):
        return len(self.given[name]) + len(self.clauses[name][0][0])


class Expression:
    """The Python text of the right-hand side of a clause."""

    def __init__(self, tokens, rules, module, definition, known):
        self.tokens, self.at, self.rules, self.module, self.known = tokens, 0, rules, module, list(known)
        self.given = module.given[definition]

    def whole(self):
        text = self.operators(0)
        assert self.at == len(self.tokens), self.tokens[self.at :]
        return text

    def next(self):
        return self.tokens[self.at] if self.at < len(self.tokens) else ''

    def step(self, expected=None):
        token = self.tokens[self.at]
        assert expected in (None, token), (expected, self.tokens[self.at - 5 : self.at + 5])
        self.at += 1
        return token

    def operators(self, least):
        left = self.prefix()
        while self.next() in OPERATORS and OPERATORS[self.next()][0] >= least:
            tightness, to_right, form = OPERATORS[self.step()]
            left = form.format(left, self.operators(tightness if to_right else tightness + 1))
        return left

    def prefix(self):
        if self.next() == 'if':
            self.step()
            test = self.operators(0)
            self.step('then')
            one = self.operators(0)
            self.step('else')
            return '(%s if %s else %s)' % (one, test, self.operators(6))
        if self.next() == 'let':
            self.step()
            name = self.step()
            while self.step() != '=':
                pass
            value = self.operators(0)
            self.step('in')
            return '(lambda %s: %s)(%s)' % (python_name(name), self.under([name]), value)
        if self.next() == 'λ':
            self.step()
            names = []
            while not names or not names[-1].endswith('.'):
                names.append(self.step())
            names[-1] = names[-1][:-1]
            body = self.under(names)
            for name in reversed(names):
                body = '(lambda %s: %s)' % (python_name(name), body)
            return body
        return self.application()

    def under(self, names):
        self.known += names
        body = self.operators(0)
        del self.known[-len(names) :]
        return body

    def application(self):
        token = self.next()
        if token in WORDS and token not in self.known:
            self.step()
            one = self.atom()
            self.step(WORDS[token][0])
            return WORDS[token][1].format(one, self.atom())
        if token == '◌≡◌':
            while self.step() != '}':
                pass
            return '(%s == %s)' % (self.atom(), self.atom())
        name, text, arguments = None, None, []
        if token in '(record' or token.isdigit() or token == '[]':
            text = self.atom()
        else:
            name = self.step()
            if re.match(r'\.\w', self.next()):
                text, name = self.fields(self.applied(name, None, [])), None
        while True:
            if self.next() in ('λ', 'if'):
                arguments.append(self.prefix())
            elif self.next() and self.next() not in OPERATORS and self.next() not in (')', '}', ';', ',', 'then', 'else', 'in', '=', 'max', 'buttons') or self.next() in self.known:
                arguments.append(self.atom())
            else:
                return self.applied(name, text, arguments)

    def fields(self, text):
        while re.match(r'\.\w', self.next()):
            text = '%s["%s"]' % (text, self.step()[1:])
        return text

    def atom(self):
        return self.fields(self.single())

    def single(self):
        token = self.step()
        if token == '(':
            parts = [self.operators(0)]
            while self.next() == ',':
                self.step()
                parts.append(self.operators(0))
            self.step(')')
            return '(%s)' % ', '.join(parts)
        if token == 'record':
            self.step('{')
            fields = []
            while self.next() != '}':
                field = self.step()
                self.step('=')
                fields.append('"%s": %s' % (field, self.operators(0)))
                if self.next() == ';':
                    self.step()
            self.step('}')
            return '{%s}' % ', '.join(fields)
        if token.isdigit() or token.startswith('"'):
            return token
        return self.applied(token, None, [])

    def applied(self, name, text, arguments):
        if name is None or name in self.known:
            return (text or python_name(name)) + ''.join('(%s)' % a for a in arguments)
        if name in ('true', 'false', '[]'):
            return {'true': 'True', 'false': 'False', '[]': '()'}[name]
        home = self.module if name in self.module.clauses or name in self.module.variants else self.rules.modules.get(self.module.uses.get(name))
        parts = self.rules.variants.get(name, home.variants.get(name) if home else None)
        if parts is not None:
            assert parts == len(arguments), name
            return '("%s",%s)' % (name, ''.join(' %s,' % a for a in arguments))
        if home and name in home.clauses:
            count, function = home.count(name), '%s_%s' % (home.name, python_name(name))
            if home is self.module and home.given[name] and self.given:
                arguments = [python_name(n) for n in self.given] + arguments
        else:
            count, function = GROUND[name][0], python_name(name)
        if len(arguments) < count:
            return 'one_by_one(%s, %d)' % (function, count) + ''.join('(%s)' % a for a in arguments)
        return '%s(%s)' % (function, ', '.join(arguments[:count])) + ''.join('(%s)' % a for a in arguments[count:])


class Rules:
    """The definitions and the worked cases, ready to compute."""

    def __init__(self):
        self.variants, self.modules = variants_in_code(), {}
        self.values, self.names = {}, {'one_by_one': one_by_one, **{python_name(n): f for n, (_, f) in GROUND.items()}}
        for name in ('Folds', 'Bytes'):
            self.modules[name] = Module(name, read('crates/laws/specs/%s.antt' % name))
        for name in RULES + BESIDE + list(CASES):
            self.modules[name] = Module(name, read('crates/rules/specs/%s.antt' % name), whole=name != 'Runs')
        # Types passes on the words of Verdicts
        self.modules['Types'] = self.modules['Verdicts']
        for name, module in self.modules.items():
            if name != 'Types':
                self.define(module)

    def put(self, name, text):
        """Puts another text in the place of a file of the rules."""
        self.modules[name] = Module(name, text)
        self.define(self.modules[name])

    def define(self, module):
        self.values.clear()
        for name, clauses in module.clauses.items():
            arguments = ['a%d' % i for i in range(len(clauses[0][0]))]
            lines = ['def %s_%s(%s):' % (module.name, python_name(name), ', '.join([python_name(n) for n in module.given[name]] + arguments))]
            for patterns, right in clauses:
                tests, bound = [], []
                for pattern, argument in zip(patterns, arguments):
                    self.match(module, pattern, argument, tests, bound)
                text = Expression(right, self, module, name, module.given[name] + [n for n, _ in bound]).whole()
                lines.append('    if %s:' % (' and '.join(tests) or 'True'))
                lines += ['        %s = %s' % (python_name(n), value) for n, value in bound]
                lines.append('        return ' + text)
            exec('\n'.join(lines), self.names)
            if not module.count(name):
                self.names['%s_%s' % (module.name, python_name(name))] = self.once(self.names['%s_%s' % (module.name, python_name(name))])

    def once(self, function):
        """A definition without arguments is computed once."""

        def value():
            if function not in self.values:
                self.values[function] = function()
            return self.values[function]

        return value

    def match(self, module, pattern, argument, tests, bound):
        if pattern == ['[]']:
            tests.append('not ' + argument)
        elif pattern == ['zero']:
            tests.append('%s == 0' % argument)
        elif pattern[0] == 'suc':
            tests.append('%s > 0' % argument)
            bound.append((pattern[1], argument + ' - 1'))
        elif pattern[1:2] == ['∷']:
            tests.append(argument)
            bound += [(pattern[0], argument + '[0]'), (pattern[2], argument + '[1:]')]
        elif pattern[0] in self.variants or pattern[0] in module.variants:
            tests.append('%s[0] == "%s"' % (argument, pattern[0]))
            bound += [(n, '%s[%d]' % (argument, i + 1)) for i, n in enumerate(pattern[1:])]
        else:
            bound.append((pattern[0], argument))

    def failing(self, files=None):
        """The worked cases that do not hold, as LIST:NUMBER, counted from 1. A case that cannot be computed does not hold."""
        self.values.clear()
        holds = self.names['CallCases_' + python_name('CallHolds')]
        for file in files or CASES:
            for cases in CASES[file]:
                try:
                    computed = self.names['%s_%s' % (file, python_name(cases))]()
                except (IndexError, KeyError, TypeError, ZeroDivisionError, RecursionError):
                    yield cases + ':1'
                    continue
                for number, case in enumerate(computed):
                    try:
                        if holds(case):
                            continue
                    except (IndexError, KeyError, TypeError, ZeroDivisionError, RecursionError):
                        pass
                    yield '%s:%d' % (cases, number + 1)


def main():
    rules = Rules()
    failing = list(rules.failing())
    count = sum(len(rules.names['%s_%s' % (file, python_name(cases))]()) for file in CASES for cases in CASES[file])
    print('%d worked cases, %d fail%s' % (count, len(failing), ': ' + ' '.join(failing) if failing else ''))
    return 1 if failing else 0


if __name__ == '__main__':
    sys.exit(main())
