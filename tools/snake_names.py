#!/usr/bin/env python3
"""Brings the repository's own definitions and lemmas to snake case, after port.py of the kit has run: `siteOf` becomes `site_of`, and so in
contracts, edits and documents. Types and modules keep their capitals, names of Rust keep their spelling. Run once, at the top of the repository."""

import glob
import os
import re
import subprocess
import sys

WORD = re.compile(r"(?<![A-Za-z0-9_'-])[a-z][a-z0-9]*(?:[A-Z][a-z0-9]*)+(?![A-Za-z_])")
# a camel-case word that is a part of a name with dashes
PART = re.compile(r"(?<![A-Za-z0-9_'])[a-z][a-z0-9]*(?:[A-Z][a-z0-9]*)+(?![A-Za-z_])")


def snake(word):
    return re.sub(r"(?<=[a-z0-9])(?=[A-Z])", "_", re.sub(r"(?<=[A-Z])(?=[A-Z][a-z])", "_", word)).lower()


def read(path):
    with open(path, encoding="utf-8") as f:
        return f.read()


def main():
    if not os.path.isdir("crates"):
        print("run it at the top of the repository", file=sys.stderr)
        return 2
    sources = sorted(p for end in ("antt", "rt") for p in glob.glob(f"crates/*/*/**/*.{end}", recursive=True) if "/out/" not in p)
    texts = {p: read(p) for p in sources}
    own = {m.group() for p, t in texts.items() for m in PART.finditer(t)}
    names = {w: snake(w) for w in own}
    # two names must not become one
    back = {}
    for old, new in sorted(names.items()):
        if new in back:
            print(f"fall together: {old} and {back[new]}")
        back[new] = old
    there = {}
    for p, t in texts.items():
        for w in set(re.findall(r"[a-z][a-z0-9_]*_[a-z0-9_]*", t)):
            if w in back:
                there.setdefault(w, []).append(p)
    others = sorted(
        p for pattern in ("crates/*/must-fail/*.edit", "must-fail-rules/*.edit", "must-fail-rules/*.md", "README.md", "CONTRIBUTING.md", "docs/*.md", "docs/changes/*.md", "examples/**/*.md", "rust/*.md", "docs/promises.json")
        for p in glob.glob(pattern, recursive=True)
    )
    changed = 0
    for p in [*sources, *others]:
        t = texts.get(p) or read(p)
        new = PART.sub(lambda m: names.get(m.group(), m.group()), t)
        new = new.replace("′", "'") if p.endswith((".antt", ".rt", ".edit")) else new
        if new != t:
            changed += 1
            with open(p, "w", encoding="utf-8") as f:
                f.write(new)
    for w, ps in sorted(there.items()):
        print(f"look: {w} (from {back[w]}) stands already in {' '.join(ps[:4])}{' ..' if len(ps) > 4 else ''}")
    print(f"{len(names)} names, {changed} files")
    return 0


if __name__ == "__main__":
    raise SystemExit(main())
