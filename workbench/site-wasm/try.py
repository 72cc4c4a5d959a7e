#!/usr/bin/env python3
"""Tries the site library in a browser, by the calls of the page: every example text is read and built to the stored bytes, bytes are shown as a text that builds to
the same bytes, a mistake and a refusal are told with their lines.

    try.py SITE.WASM     needs chromium; exit status 0 if all is as expected"""
import base64
import json
import subprocess
import sys
import tempfile
from pathlib import Path

ROOT = Path(__file__).resolve().parents[2]

PAGE = """<!DOCTYPE html><meta charset="utf-8"><pre id="out">not run</pre><script>
%s
const cases = %s;
const wasm = new WebAssembly.Module(Uint8Array.from(atob("%s"), c => c.charCodeAt(0)));
const site = new SiteTexts(new WebAssembly.Instance(wasm).exports);
const same = (a, b) => JSON.stringify(a) === JSON.stringify(b);
const wrong = [];
function expect(what, truth) { if (!truth) wrong.push(what); }
for (const [name, text, bytes] of cases) {
    const built = site.parse(text).built;
    expect(name + ": bytes", same(built.bytes, bytes) && built.spans.length === bytes.length);
    expect(name + ": shown", same(site.parse(site.show(Uint8Array.from(bytes))).built.bytes, bytes));
}
const [, text] = cases.find(([name]) => name.endsWith("two_phases/site.txt"));
const mistakes = site.parse(text.replace("locking", "lokcing")).mistakes;
expect("a mistake", mistakes.length === 1 && mistakes[0].found === "`lokcing`" && mistakes[0].span.column === 14);
const told = site.tell(text, 5, 20);
expect("a refusal", told.text.startsWith("phase A: yellow is 3.0 s") && told.span.line === 9);
const fast = text.replace("vehicle ", "vehicle approach north ") + "\\napproaches\\nnorth speed 60\\nsouth speed 10\\n";
const warned = site.warnings(fast, 270, "60 0 41");
expect("a warning", warned.length === 1 && warned[0].kind === "short-yellow");
const [wait] = site.waits(text);
const steps = wait.parts.map(({ terms }) => terms.reduce((sum, term) => sum + term.steps, 0));
expect("a wait", wait.who === "phase A" && same(wait.parts.map(part => part.what), ["A is left", "turn of B"]) && same(steps, [40, 90]));
expect("inputs", same(site.inputs(text, "steps 3\\n2 detector 1\\n").inputs, ["0", "2", "0"]));
expect("no inputs", site.inputs(text, "steps 3\\n4 detector 1\\n").mistakes.length === 1);
expect("no text", site.show(Uint8Array.from([1, 2, 3])).startsWith("! "));
document.getElementById("out").textContent = wrong.length ? "WRONG " + wrong.join(", ") : "as expected";
</script>
"""


def cases():
    for path in sorted(ROOT.glob("examples/*/site*.txt")):
        stored = path.with_name(path.stem.replace("site", "personality") + ".bin")
        yield str(path.relative_to(ROOT)), path.read_text(encoding="utf-8"), list(stored.read_bytes())


def main():
    tried = list(cases()) or sys.exit("no example has a site text: nothing was tried")
    script = Path(ROOT, "workbench/page/src/library.js").read_text(encoding="utf-8")
    wasm = base64.b64encode(Path(sys.argv[1]).read_bytes()).decode()
    listed = json.dumps(tried).replace("</", "<\\/")
    with tempfile.TemporaryDirectory() as folder:
        page = Path(folder, "try.html")
        page.write_text(PAGE % (script, listed, wasm), encoding="utf-8")
        chromium = ["chromium", "--headless", "--no-sandbox", "--disable-gpu", f"--user-data-dir={folder}/profile", "--dump-dom", page.as_uri()]
        shown = subprocess.run(chromium, stdin=subprocess.DEVNULL, capture_output=True, text=True, timeout=120).stdout
    told = shown.split('<pre id="out">')[1].split("</pre>")[0] if '<pre id="out">' in shown else "chromium showed nothing"
    print(f"site.wasm in a browser: {told}")
    return 0 if told == "as expected" else 1


if __name__ == "__main__":
    sys.exit(main())
