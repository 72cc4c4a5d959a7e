#!/usr/bin/env python3
"""Joins the page with its scripts, the two WebAssembly modules and the examples: target/workbench.html."""

import base64
import json
import re
from pathlib import Path

HERE = Path(__file__).resolve().parent
ROOT = HERE.parent.parent
SCRIPTS = ["library", "check", "run", "editor", "heads", "junction", "timeline", "tabs", "page", "show", "views", "files", "main"]


def title_of(folder, text, variant):
    """The name that the text gives, or else the first heading of the note; and the plan if it is not the first one."""
    named = re.search(r'^name\s+"(.*)"', text, re.MULTILINE)
    title = named[1] if named else (folder / "NOTE.md").read_text().splitlines()[0].lstrip("# ")
    return f"{title}, {variant}" if variant else title


def text_of(folder, site):
    """The site text, with the streams of its road at the end."""
    text = site.read_text()
    road = folder / "road.txt"
    if road.exists() and "\nstreams" not in text:
        text = text.rstrip("\n") + "\n\nstreams\n" + road.read_text()
    return text


def examples():
    """The sites of the workbench first, then those of examples/."""
    found = []
    for folder in [path.parent for home in (HERE.parent, ROOT) for path in sorted(home.glob("examples/*/site.txt"))]:
        scripts = [{"name": script.stem, "text": script.read_text()} for script in sorted(folder.glob("inputs*.txt"))]
        for site in sorted(folder.glob("site*.txt")):
            variant = site.stem.partition("_")[2]
            name = folder.name + ("_" + variant if variant else "")
            text = text_of(folder, site)
            found.append({"name": name, "title": title_of(folder, text, variant), "text": text, "inputs": scripts})
    return found


def base64_of(path):
    return base64.b64encode(path.read_bytes()).decode("ascii")


def main():
    parts = {
        "@STYLE@": (HERE / "src" / "style.css").read_text(),
        "@LIBRARY@": base64_of(ROOT / "target" / "targets" / "wasm32" / "willowera.wasm"),
        "@SITE@": base64_of(ROOT / "target" / "workbench" / "site.wasm"),
        # A text in a script element must not have its end tag.
        "@EXAMPLES@": json.dumps(examples()).replace("<", "\\u003c"),
        "@SCRIPT@": "\n".join((HERE / "src" / f"{name}.js").read_text() for name in SCRIPTS),
    }
    page = (HERE / "src" / "page.html").read_text()
    for mark, text in parts.items():
        before, after = page.split(mark)
        page = before + text + after
    out = ROOT / "target" / "workbench.html"
    out.write_text(page)
    print(f"{out.relative_to(ROOT)}: {len(page.encode()):,} bytes")


if __name__ == "__main__":
    main()
