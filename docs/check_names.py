#!/usr/bin/env python3
"""Checks that every path, definition, function and must-fail edit that a document names exists.

    python3 docs/check_names.py                # every document, and the self-test
    python3 docs/check_names.py FILE ..        # only these
    python3 docs/check_names.py --self-test    # a text with one mistake of each kind; each must be reported

It prints a line for each name that does not exist: file, line, the name and what was looked for. The exit status is 1 if there is one.

Documents are all .md files of the repository. The notes in docs/changes describe the tree at the time of a change, and docs/PORT.md,
docs/DESIGN-PASS.md and docs/LOOK-BACK.md name what things were called, so only their links are checked.

The rules. In backticks:

 1. `a/b` is a path: from the document's folder, the repository, crates/ or a crate that the section names. The ending .antt or .rt, and the
    folder src, specs or proofs of a crate, may be left out. `crate/label` is a must-fail edit, and
    `crate/File.name` a definition or theorem of that crate. `*` stands for any name, and so do NAME,
    LABEL, FILE, MODULE and FUNCTION. `name/` alone is a folder of that name anywhere. A path in target/ or in the out/ of a crate is not checked, since it is built; a
    word whose parts have fewer than three letters, as km/h, is no path.
 2. `name.ext` is a file of that name anywhere in the repository, if ext is the ending of one of its files.
 3. `crate::item`, `crate::module::item`: a function, type or constant in src/. The crate may be left out if the section names it, and it may
    be a package of rust/. `Type::item`: a variant, constant or function of the type.
 4. `File.name`: a definition of File.antt in specs/ or proofs/, or a field of the type File; in `rules`, in `laws` or in a crate
    that the section names.
 5. `willowera_name`: an exported function, in each of the three places of rule 15; or a function of another header in include/.
 6. `snake_case`: a crate, a must-fail edit, an example, a package of rust/, or something declared in the code, in specs/ or in a file of the document's folder. In a document beside .edit
    files: an edit of that folder, a crate or a function. `prefix_` and `prefix_*`: at least one of these begins with it. C types (`_t`) are
    not checked.
 7. `Capital`, `camelCase`: a definition, a type, a variant, a field or a file of any crate, or a name that a crate takes from the libraries.
 8. `kebab-case`: a theorem, a folder, a word of a site's text (in quotes in examples/build.py or workbench/site), or a word of a script in targets/.
 9. `WILLOWERA_NAME`: it stands in a header of include/ or in rust/.
10. `word`, of small letters alone: it occurs in the code of a crate or of rust/ outside comments, or in a script or a text of the repository.
11. Of several words in one pair of backticks, those after `rt ci`, `rt must-fail` and the like are crates, one after `cargo .. -p` is a package
    of rust/, a path that begins with a folder of the repository must exist, `a::b` is checked as in 3, and a word with a capital inside it must
    occur in the code. In a code block only crates, packages and paths are checked.
12. Anything else is no reference: a word with other signs, a number, capitals alone.

Links:

13. A link leads to a file or folder of the repository, and its #part to a heading. Links to other hosts are not followed.
14. A name in backticks within a link to a source file is declared in that file, or is the file's name, or the function whose proof it is. What
    stands before `::` is the file's crate, module or a type of it, and before `.` the file's name.

The section of a name runs from the heading above it to the next one. It names a crate if the crate's name is in backticks in it, alone or in a
path, or in the target of a link.

15. The library (crates/willowera_c), the header and the Rust package declare the same exported functions.
"""
import fnmatch
import os
import re
import sys
from collections import defaultdict, namedtuple

ROOT = os.path.dirname(os.path.dirname(os.path.abspath(__file__)))
LINKS_ONLY = 'docs/changes/'
OLD_NAMES = ('docs/PORT.md', 'docs/DESIGN-PASS.md', 'docs/LOOK-BACK.md')
PLACEHOLDERS = ('NAME', 'LABEL', 'FILE', 'MODULE', 'FUNCTION')
CRATE_COMMANDS = r'\brt (?:ci|check|must-fail|lib|run|test|try)((?: +[a-z_][a-z0-9_]*)+)'

SNAKE = re.compile(r'[a-z][a-z0-9]*(?:_[a-z0-9]+)+\Z')
PREFIX = re.compile(r'([a-z][a-z0-9]*(?:_[a-z0-9]+)*_)\*?\Z')
CAMEL = re.compile(r'(?:[a-z]+[a-z0-9]*[A-Z][A-Za-z0-9]*|[A-Z][A-Za-z0-9]*[a-z][A-Za-z0-9]*)\Z')
INNER_CAPITAL = re.compile(r'[A-Za-z]*[a-z][0-9]*[A-Z][A-Za-z0-9]*\Z')
SMALL = re.compile(r'[a-z][a-z0-9]*\Z')
KEBAB = re.compile(r'[a-z][a-z0-9]*(?:-[a-z0-9]+)+\Z')
CAPITALS = re.compile(r'WILLOWERA_[A-Z0-9_]+\Z')
COLONS = re.compile(r'[A-Za-z_][A-Za-z0-9_]*(?:::[A-Za-z_][A-Za-z0-9_]*)+\Z')
DOTTED = re.compile(r'([A-Z][A-Za-z0-9]*)\.([A-Za-z][A-Za-z0-9_-]*)\Z')
EXTENSION = re.compile(r'[A-Za-z0-9_*-]+\.([a-z]+)\Z')
PATH = re.compile(r'\.?[A-Za-z0-9_.*-]*(?:/[A-Za-z0-9_.*-]*)+\Z')

Problem = namedtuple('Problem', 'line name looked_for')


def read(path):
    with open(path, encoding='utf-8') as f:
        return f.read()


# ── What the tree declares ──


def without_comments(text, mark):
    return re.sub(rf'(?m)(?:^|(?<=\s)){re.escape(mark)}.*$', '', text)


def declared_in_antt(text):
    """Names of definitions, laws, records, fields and constructors: `name : type`, within a record or a module too."""
    names = set()
    plain = r'(?m)^(?:  ){0,3}(?!module |use |--)(?:(?:pub|unfoldable|abbrev)\s+)*([^\s:(){}]+)(?: [^=\n:]*)? :(?:\s|$)'
    record = r'(?m)^(?:  ){0,3}(?:pub\s+)?(?:record|data)\s+([^\s:(){}]+)'
    for name in re.findall(plain, text) + re.findall(record, text):
        names.add(name)
        names.update(part for part in name.split('◌') if part)
    return names


def declared_in_rust(text):
    """Names that a file in Rattle or Rust declares, and the members of its types."""
    names = set(re.findall(r'\b(?:fn|struct|enum|const|static|type|mod|trait)\s+([A-Za-z_]\w*)', text))
    members = defaultdict(set)
    for m in re.finditer(r'(?ms)^(?:pub(?:\([a-z]+\))?\s+)?(struct|enum|impl)(?:<[^>]*>)?\s+(\w+)[^{;]*\{(.*?)^\}', text):
        parts = r'\b(?:fn|const)\s+([A-Za-z_]\w*)' if m.group(1) == 'impl' else r'(?m)^    (?:pub\s+)?([A-Za-z_]\w*)\s*(?=[:,({])'
        members[m.group(2)].update(re.findall(parts, m.group(3)))
    return names, members


class Tree:
    """The files of the repository, and the names that they declare."""

    def __init__(self, root):
        self.root = root
        self.files, self.folders = [], ['']
        for folder, folders, files in os.walk(root):
            folders[:] = sorted(d for d in folders if d not in ('target', 'out', '.git', '__pycache__'))
            here = os.path.relpath(folder, root)
            here = '' if here == '.' else here + '/'
            self.folders += [here + d for d in folders]
            self.files += [here + f for f in sorted(files)]
        self.all = set(self.files) | set(self.folders)
        self.names = {os.path.basename(p) for p in self.all}
        self.endings = {f.rsplit('.', 1)[1] for f in self.files if '.' in os.path.basename(f)[1:]}
        self.crates = [f.split('/')[1] for f in self.files if re.fullmatch(r'crates/\w+/src/(lib|main)\.rt', f)]
        self.packages = [f.split('/')[1] for f in self.files if re.fullmatch(r'rust/\w+/Cargo\.toml', f)]
        self.examples = [f.split('/')[1] for f in self.files if re.fullmatch(r'examples/\w+/site\.txt', f)]
        self.edits = {f for f in self.files if f.endswith('.edit')}
        self.edit_labels = {os.path.basename(f)[:-5] for f in self.edits}

        self.declared = {}                     # file -> the names that it declares
        self.members = defaultdict(set)        # (crate or package, type) -> fields, variants, functions
        self.in_code = set()                   # every word in the code of crates/ and rust/
        self.in_scripts = set()                # every word in the scripts, C files and texts
        self.taken = set()                     # names that a crate takes from others and from the libraries
        for f in self.files:
            if f.endswith('.antt'):
                text = self.text(f)
                self.declared[f] = declared_in_antt(text)
                for names in re.findall(r'(?m)^use [^{\n]*\.\{([^}]*)\}', text):
                    self.taken.update(n.strip() for n in names.split(','))
                self.in_code.update(re.findall(r'[A-Za-z][A-Za-z0-9]*', without_comments(text, '--')))
            elif f.endswith(('.rt', '.rs')):
                text = without_comments(self.text(f), '//')
                self.declared[f], members = declared_in_rust(text)
                for names in re.findall(r'(?m)^ghost use [^{\n]*\.\{([^}]*)\}', text):
                    self.taken.update(n.strip() for n in names.split(','))
                for kind, names in members.items():
                    self.members[f.split('/')[1], kind] |= names
                self.in_code.update(re.findall(r'[A-Za-z]\w*', text))
            elif f.endswith(('.c', '.h', '.py', '.sh')):
                found = re.findall(r'(?m)^\s*(?:def|class)\s+(\w+)|^(\w+)\(\)|\b(\w+)\(|^#define (\w+)', self.text(f))
                self.declared[f] = {n for names in found for n in names if n}
            if f.endswith(('.c', '.h', '.py', '.sh', '.toml', '.txt')) and not f.startswith('docs/'):
                self.in_scripts.update(re.findall(r'[A-Za-z]\w*', self.text(f)))

        in_crates = {f: names for f, names in self.declared.items() if f.startswith('crates/')}
        in_rust = {f: names for f, names in self.declared.items() if f.startswith('rust/')}
        self.anywhere = set().union(*in_crates.values(), *in_rust.values(), *self.members.values())
        self.modules = {os.path.basename(f).rsplit('.', 1)[0] for f in in_crates}
        self.theorems = set().union(*(names for f, names in in_crates.items() if f.endswith('.antt')))
        header = self.text('include/willowera.h')
        beside = ''.join(self.text(f) for f in self.files if f.startswith('include/') and f != 'include/willowera.h')
        sources = lambda folder: ''.join(self.text(f) for f in self.declared if f.startswith(folder))
        self.exports = {
            'include/willowera.h': set(re.findall(r'\b(willowera_\w+)\s*\(', re.sub(r'(?s)/\*.*?\*/', '', header))),
            'crates/willowera_c/src': set(re.findall(r'pub extern "C" fn (willowera_\w+)', sources('crates/willowera_c/src/'))),
            'rust/willowera/src': set(re.findall(r'pub fn (willowera_\w+)', sources('rust/willowera/src/'))),
        }
        self.capitals = set(re.findall(r'WILLOWERA_[A-Z0-9_]+', header + beside + sources('rust/')))
        self.beside = set(re.findall(r'\b(willowera_\w+)\s*\(', re.sub(r'(?s)/\*.*?\*/', '', beside)))
        self.site_words = set(re.findall(r'["\']([a-z]+(?:-[a-z]+)+)["\']', self.text('examples/build.py') + sources('workbench/site/src/')))
        scripts = [f for f in self.files if f.startswith('targets/') and f.endswith(('.py', '.sh', '.txt'))]
        self.target_words = {w for f in scripts for w in re.findall(r'[a-z][a-z0-9]*(?:-[a-z0-9]+)*', self.text(f))}

    def text(self, path):
        return read(os.path.join(self.root, path))

    def files_of(self, crate, folders=('src', 'specs', 'proofs')):
        """The source files of a crate or of a package."""
        if crate in self.crates:
            heads = tuple(f'crates/{crate}/{folder}/' for folder in folders)
        else:
            heads = (f'rust/{crate}/src/',)
        return [f for f in self.declared if f.startswith(heads)]

    def exists(self, path):
        path = os.path.normpath(path) if path else ''
        if path.startswith('..'):
            return False
        if '*' in path:
            return any(fnmatch.fnmatch(p, path) and p.count('/') == path.count('/') for p in self.all)
        return path in self.all or path == '.'


# ── The rules for one name: each function answers None, or what was looked for ──


def find_path(tree, word, folder, scope):
    path = word.rstrip('/')
    for placeholder in PLACEHOLDERS:
        path = re.sub(rf'\b{placeholder}\b', '*', path)
    if path in ('target', './target') or path.startswith(('target/', './target/')) or re.match(r'(?:\./)?crates/(?:\w+|\*)/out\b', path):
        return None
    if '/' not in path and any(os.path.basename(f) == path for f in tree.folders):
        return None
    path = path[2:] if path.startswith('./') else path
    bases = [folder, '', 'crates'] + [f'crates/{crate}' for crate in scope]
    for base in bases:
        for ending in ('', '.antt', '.rt', '.edit'):
            if tree.exists(os.path.join(base, path + ending)):
                return None
    head, _, rest = path.partition('/')
    if head in tree.crates or '*' in head:
        for inner in (f'must-fail/{rest}.edit', f'specs/{rest}.antt', f'proofs/{rest}.antt', f'src/{rest}.rt'):
            if tree.exists(f'crates/{head}/{inner}'):
                return None
        m = DOTTED.match(rest)
        if m and head in tree.crates:
            return find_declared(tree, [head], m.group(1), m.group(2))
        if head in tree.crates:
            return f'a must-fail edit `{rest}` of the crate {head}, or a file of it'
    return 'a file or folder'


def find_item(tree, parts, scope):
    """`crate::item`, `crate::module::item`, `module::item`, `Type::item`."""
    head, item = parts[0], parts[-1]
    owners = []
    if head in tree.crates or head in tree.packages:
        owners.append((head, parts[1:-1]))
    owners += [(crate, parts[:-1]) for crate in scope if crate in tree.crates]
    for crate, modules in owners:
        files = tree.files_of(crate, ('src',))
        stems = {os.path.basename(f).rsplit('.', 1)[0]: f for f in files}
        if not modules:
            if item in stems or any(item in tree.declared[f] for f in files):
                return None
        elif len(modules) == 1 and modules[0] in stems and item in tree.declared[stems[modules[0]]]:
            return None
        elif len(modules) == 1 and item in tree.members.get((crate, modules[0]), ()):
            return None
    if len(parts) == 2 and any(kind == head and item in names for (_, kind), names in tree.members.items()):
        return None
    if head in tree.crates:
        return f'a function, type or constant in crates/{head}/src'
    if head in tree.packages:
        return f'a function, type or module in rust/{head}/src'
    return 'a function of a crate that the section names, or a variant of a type'


def find_declared(tree, crates, file, name):
    for crate in crates:
        for folder in ('specs', 'proofs'):
            if name in tree.declared.get(f'crates/{crate}/{folder}/{file}.antt', ()):
                return None
        if name in tree.members.get((crate, file), ()):
            return None
    return f'a definition or theorem `{name}` in {file}.antt of ' + ' or '.join(crates)


def find_definition(tree, file, name, scope):
    return find_declared(tree, ['rules', 'laws'] + [c for c in scope if c not in ('rules', 'laws')], file, name)


def find_snake(tree, word, folder):
    beside = {os.path.basename(f)[:-5] for f in tree.edits if os.path.dirname(f) == folder}
    labels = beside or tree.edit_labels
    if any(word in names for f, names in tree.declared.items() if os.path.dirname(f) == folder):
        return None
    if word in tree.crates or word in labels or word in tree.packages or word in tree.examples or word in tree.anywhere or word in tree.modules:
        return None
    return f'an edit in {folder}/, a crate or a function' if beside else 'a crate, a function, a must-fail edit or an example'


def find_word(tree, word, folder, scope):
    """What was looked for in vain, of one word in backticks."""
    word = re.sub(r'\(\)$', '', word)
    if '/' in word and PATH.match(word) and '//' not in word:
        if not any(len(re.sub(r'[^A-Za-z]', '', part)) >= 3 for part in word.split('/')):
            return None
        return find_path(tree, word, folder, scope)
    if COLONS.match(word):
        return find_item(tree, word.split('::'), scope)
    m = EXTENSION.match(word)
    if m and m.group(1) in tree.endings:
        pattern = word
        for placeholder in PLACEHOLDERS:
            pattern = re.sub(rf'\b{placeholder}\b', '*', pattern)
        return None if any(fnmatch.fnmatch(n, pattern) for n in tree.names) else 'a file of that name'
    m = DOTTED.match(word)
    if m:
        return find_definition(tree, m.group(1), m.group(2), scope)
    if SNAKE.match(word):
        if word.endswith('_t'):
            return None
        if word.startswith('willowera_'):
            if word in tree.beside or word in tree.crates:
                return None
            missing = [where for where, names in tree.exports.items() if word not in names]
            return 'an exported function in ' + ' and '.join(missing) if missing else None
        return find_snake(tree, word, folder)
    m = PREFIX.match(word)
    if m:
        begins = tuple(tree.crates) + tuple(tree.anywhere) + tuple(tree.edit_labels)
        return None if any(n.startswith(m.group(1)) for n in begins) else 'a crate or a function that begins so'
    if CAPITALS.match(word):
        return None if word in tree.capitals else 'a name in include/ or rust/'
    if CAMEL.match(word):
        if word in tree.anywhere or word in tree.modules or word in tree.taken:
            return None
        return 'a definition, type, variant or file of a crate'
    if SMALL.match(word):
        return None if word in tree.in_code or word in tree.in_scripts or word in tree.names else 'a word of the code, of a script or of a text'
    if KEBAB.match(word):
        known = word in tree.theorems or word in tree.names or word in tree.site_words or word in tree.target_words
        return None if known else 'a theorem, a folder, a word of a site or of targets/'
    return None


def find_in_words(tree, text, folder, scope, code_block):
    """(name, what was looked for) of several words: a command, a formula, a code block."""
    missing = []
    for names in re.findall(CRATE_COMMANDS, text):
        missing += [(name, 'a crate') for name in names.split() if name not in tree.crates]
    for name in re.findall(r'\bcargo .*?-p +([a-z_]+)', text):
        if name not in tree.packages:
            missing.append((name, 'a package of rust/'))
    for word in re.split(r'[\s()\[\]{},;"\'|<>=]+', text):
        word = word.rstrip('.:')
        top = word[2:] if word.startswith('./') else word
        if PATH.match(word) and top.split('/')[0] in tree.folders and '/' in top:
            looked_for = find_path(tree, word, folder, scope)
        elif code_block:
            continue
        elif COLONS.match(word):
            looked_for = find_item(tree, word.split('::'), scope)
        elif INNER_CAPITAL.match(word):
            looked_for = None if word in tree.in_code or word in tree.modules else 'a name in the code of a crate'
        else:
            continue
        if looked_for:
            missing.append((word, looked_for))
    return missing


def find_in_file(tree, word, target):
    """A name within a link: declared in the linked file, or the file's own name."""
    stem, owner = os.path.basename(target).rsplit('.', 1)[0], (target.split('/') + [''])[1]
    looked_for = f'a declaration in {target}'
    if word == os.path.basename(target):
        return None
    *before, item = re.split(r'::|\.', re.sub(r'\(\)$', '', word))
    kinds = {kind for crate, kind in tree.members if crate == owner}
    if not set(before) <= {stem, owner} | kinds:
        return looked_for
    if stem == 'Proof' and item == os.path.basename(os.path.dirname(target)) or item == stem or item in tree.declared[target]:
        return None
    if target.endswith(('.rt', '.rs')) and any(item in tree.members[owner, kind] for kind in kinds):
        return None
    return looked_for


# ── Documents ──


def anchors_of(text):
    """The #parts of a document's headings, as they are shown on the web."""
    anchors, seen = set(), defaultdict(int)
    for heading in re.findall(r'(?m)^#+ +(.*?) *#*$', hide_code_blocks(text)[0]):
        heading = re.sub(r'\[([^\]]*)\]\([^)]*\)', r'\1', heading)
        slug = re.sub(r'[^\w\- ]', '', heading.lower()).replace(' ', '-')
        anchors.add(f'{slug}-{seen[slug]}' if seen[slug] else slug)
        seen[slug] += 1
    return anchors


def hide_code_blocks(text):
    """The text with its code blocks as empty lines, and the blocks as (line, text)."""
    lines, blocks, fence, blank, inside = [], [], None, True, False
    for number, line in enumerate(text.split('\n'), 1):
        mark = re.match(r'\s*(```+|~~~+)', line)
        if fence:
            if mark and mark.group(1).startswith(fence):
                fence = None
            else:
                blocks.append((number, line))
            lines.append('')
            blank = True
            continue
        if mark:
            fence = mark.group(1)
            lines.append('')
            continue
        indented = line.startswith('    ') and (blank or inside)
        if indented and line.strip():
            blocks.append((number, line))
            lines.append('')
            inside = True
            continue
        blank = not line.strip()
        inside = inside and blank
        lines.append(line)
    return '\n'.join(lines), blocks


def check_text(tree, text, document):
    """The problems of a document, by its path in the repository."""
    folder = os.path.dirname(document)
    links_only = document.startswith(LINKS_ONLY) or document in OLD_NAMES
    shown, blocks = hide_code_blocks(text)
    line_of = lambda at: shown.count('\n', 0, at) + 1
    problems = []

    spans = [m for m in re.finditer(r'(?<!`)(`+)(?!`)((?:(?!\n\s*\n).)+?)(?<!`)\1(?!`)', shown, re.S)]
    masked = list(shown)
    for m in spans:
        for i in range(m.start(2), m.end(2)):
            if masked[i] != '\n':
                masked[i] = 'x'
    masked = ''.join(masked)
    links = [(m.start(1), m.end(1), m.group(2), m.start(2)) for m in re.finditer(r'\[([^\[\]]*)\]\(([^()\s]+)(?:\s+"[^"]*")?\)', masked)]
    links += [(m.start(), m.start(), m.group(1), m.start(1)) for m in re.finditer(r'(?m)^\[[^\]]+\]:\s*(\S+)', masked)]

    targets = {}
    for start, end, target, at in links:
        if re.match(r'[a-z]+:', target):
            continue
        path, _, part = target.partition('#')
        where = os.path.normpath(os.path.join(folder, path)) if path else document
        if not tree.exists(where) and where != document:
            problems.append(Problem(line_of(at), target, f'a file or folder {where}'))
            continue
        targets[start, end] = where
        if part:
            page = where
            if page in tree.folders:
                page = os.path.join(page, 'README.md')
            headings = anchors_of(text) if page == document else anchors_of(read(os.path.join(tree.root, page))) if page.endswith('.md') and page in tree.all else set()
            if part not in headings:
                problems.append(Problem(line_of(at), target, f'a heading #{part} in {page}'))
    if links_only:
        return problems

    starts = [0] + [m.start() for m in re.finditer(r'(?m)^#+ ', masked)] + [len(shown) + 1]
    crate_name = re.compile(r'\b(?:' + '|'.join(map(re.escape, tree.crates)) + r')\b')
    scopes = []
    for a, b in zip(starts, starts[1:]):
        said = [m.group(2) for m in spans if a <= m.start() < b] + [target for _, _, target, at in links if a <= at < b]
        scopes.append([c for c in dict.fromkeys(n for s in said for n in crate_name.findall(s))])

    for m in spans:
        content = re.sub(r'\s+', ' ', m.group(2)).strip()
        scope = scopes[max(i for i, a in enumerate(starts[:-1]) if a <= m.start())]
        link = next((where for (a, b), where in targets.items() if a <= m.start() and m.end() <= b), None)
        line = line_of(m.start())
        if ' ' in content:
            problems += [Problem(line, name, looked_for) for name, looked_for in find_in_words(tree, content, folder, scope, False)]
        elif link in tree.declared and '/' not in content:
            looked_for = find_in_file(tree, content, link)
            if looked_for:
                problems.append(Problem(line, content, looked_for))
        else:
            looked_for = find_word(tree, content, folder, scope)
            if looked_for:
                problems.append(Problem(line, content, looked_for))
    for number, line in blocks:
        for name, looked_for in find_in_words(tree, line, folder, [], True):
            problems.append(Problem(number, name, looked_for))
    return sorted(problems)


def check_exports(exports):
    """(place, name) of each exported function that a place does not declare, though another one does."""
    every = set().union(*exports.values())
    return [(place, name) for place, names in exports.items() for name in sorted(every - names)]


# ── The self-test ──

# Names in braces are taken from the tree. A line that begins with @ has a mistake.
SELF_TEST = '''# Title

Right: [a part](#title), [`{definition}`](../{spec}), `{folder}`, `{file}.{definition}`, `{crate}::{function}`, `{crate}::{module}::{function}`, [`{crate}::{function}`](../{source}), `{edit_crate}/{label}`,
`crates/NAME/must-fail/LABEL.edit`, `{exported}`, `{definition}`, `{type}::{variant}`, `{theorem}`, `size_t`, `km/h`, `--check`, `rt ci {crate}`, `requires`.

@[missing page](no-such-page.md)
@[missing heading](#no-such-heading)
@[`noSuchDefinition`](../{spec}), a definition in a link
@[`no-such-theorem`](../{proof})
@[`no_such_crate::{function}`](../{source}), a function of another crate in a link
@`{folder}/NoSuchFile.antt`, a path
@`NoSuchFile.antt`, a file
@`{file}.noSuchDefinition`
@`noSuchDefinition`, by its name alone
@`{crate}::no_such_function`
@`{crate}::{module}::no_such_function`
@`no_such_crate::{function}`
@`{type}::NoSuchVariant`
@`{edit_crate}/no_such_edit`
@`no_such_crate`
@`nosuch_`, a prefix
@`willowera_no_such_function`
@`WILLOWERA_NO_SUCH_NUMBER`
@`no-such-law`
@`nosuchword`
@`cargo run -p nosuchpackage`
@`rt ci no_such_crate`
@`examples/no_such_script.sh part`

    rt must-fail {crate}
@   rt must-fail no_such_crate
@   python3 docs/no_such_script.py
'''


def names_of(tree):
    """Names of each kind that exist, for the self-test."""
    spec = next(f for f in sorted(tree.declared) if f.startswith('crates/rules/specs/') and any(INNER_CAPITAL.match(n) for n in tree.declared[f]))
    source = next(f for f in sorted(tree.declared)
                  if re.fullmatch(r'crates/\w+/src/(?!lib|main)\w+\.rt', f) and not f.startswith('crates/rules/') and any(SNAKE.match(n) for n in tree.declared[f]))
    proof = next(f for f in sorted(tree.declared) if re.fullmatch(r'crates/proof_\w+/proofs/\w+\.antt', f) and any(KEBAB.match(n) for n in tree.declared[f]))
    edit = next(f for f in sorted(tree.edits) if f.startswith('crates/'))
    kind = next(kind for (owner, kind) in sorted(tree.members) if owner == 'rules' and any(n[0].isupper() for n in tree.members[owner, kind]))
    first = lambda names, shape: next(n for n in sorted(names) if shape.match(n))
    return {
        'spec': spec, 'folder': os.path.dirname(spec), 'file': os.path.basename(spec)[:-5], 'definition': first(tree.declared[spec], INNER_CAPITAL),
        'source': source, 'crate': source.split('/')[1], 'module': os.path.basename(source)[:-3], 'function': first(tree.declared[source], SNAKE),
        'proof': proof, 'theorem': first(tree.declared[proof], KEBAB),
        'edit_crate': edit.split('/')[1], 'label': os.path.basename(edit)[:-5],
        'type': kind, 'variant': next(n for n in sorted(tree.members['rules', kind]) if n[0].isupper()),
        'exported': min(tree.exports['include/willowera.h']),
    }


def self_test(tree):
    """Prints what the check did not do as it must, and answers how many such things there are."""
    text = SELF_TEST.format(**names_of(tree))
    wanted = {number for number, line in enumerate(text.split('\n'), 1) if line.startswith('@')}
    text = re.sub(r'(?m)^@', '', re.sub(r'(?m)^@   ', '    ', text))
    reported = defaultdict(list)
    for problem in check_text(tree, text, 'docs/self-test.md'):
        reported[problem.line].append(problem)
    failures = [f'not reported: {line}' for number, line in enumerate(text.split('\n'), 1) if number in wanted and number not in reported]
    missed = len(failures)
    failures += [f'reported, though it exists: {reported[number]}' for number in sorted(set(reported) - wanted)]
    if check_exports({'x': {'a'}, 'y': {'a'}}) or check_exports({'x': {'a', 'b'}, 'y': {'b', 'c'}}) != [('x', 'c'), ('y', 'a')]:
        failures.append('a difference between header and library is not reported')
    if check_text(tree, '`no_such_crate`', LINKS_ONLY + 'x.md') or not check_text(tree, '[x](no-such-page.md)', LINKS_ONLY + 'x.md'):
        failures.append('a change note is not checked for its links alone')
    for failure in failures:
        print(f'self-test: {failure}')
    print(f'self-test: {len(wanted)} mistakes, {len(wanted) - missed} reported')
    return len(failures)


def main(words):
    tree = Tree(ROOT)
    if words == ['--self-test']:
        return 1 if self_test(tree) else 0
    documents = [os.path.relpath(os.path.abspath(w), ROOT) for w in words] or [f for f in tree.files if f.endswith('.md')]
    if not documents:
        print('no document: nothing was checked')
        return 1
    count = 0
    for document in documents:
        for problem in check_text(tree, read(os.path.join(ROOT, document)), document):
            print(f'{document}:{problem.line}: `{problem.name}`: not found: {problem.looked_for}')
            count += 1
    if not words:
        for place, name in check_exports(tree.exports):
            print(f'{place}: `{name}`: not found: an exported function')
            count += 1
        count += self_test(tree)
    print(f'{len(documents)} documents, {count} names not found')
    return 1 if count else 0


if __name__ == '__main__':
    sys.exit(main(sys.argv[1:]))
