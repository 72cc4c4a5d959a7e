#!/usr/bin/env python3
"""A check that looked at nothing fails: runs the checks of test.sh on empty input, and demands that each fails and says why.

    tools/empty.py      with the library in target/staticlib, and the proved trace program in crates/run_trace/out

An empty input is a file without bytes or with heads alone, a count of 0, a part or a name that there is not, or a copy of the repository from
which the documents, the example sites, the tables or the library are taken away. The exit status is 0 if every check fails with the words that
are expected of it."""

import os
import shutil
import subprocess
import sys
import tempfile
from pathlib import Path

ROOT = Path(__file__).resolve().parent.parent
COPIED = ("docs", "examples", "include", "must-fail-rules", "targets", "tools", "vectors", "workbench")
LENT = ("README.md", "CONTRIBUTING.md", "crates", "crates.txt", "rust", "target", "test.sh")
BUILT = ROOT / "rust/target/release"
TRACE = ROOT / "crates/run_trace/out/run_trace"
NOTHING = "nothing was compared"


def copy_into(folder):
    """A copy of the repository, in which what no check here takes away is lent."""
    shutil.rmtree(folder, ignore_errors=True)
    for name in COPIED:
        shutil.copytree(ROOT / name, folder / name, symlinks=True)
    for name in LENT:
        (folder / name).symlink_to(ROOT / name)
    return folder


def without(folder, *patterns):
    """Removes files; there must be some."""
    for pattern in patterns:
        found = list(folder.glob(pattern))
        assert found, f"{pattern}: there is no such file"
        for path in found:
            path.unlink()


def emptied(folder, *names):
    """Leaves files without a byte."""
    for name in names:
        assert (folder / name).stat().st_size > 0, name
        (folder / name).write_bytes(b"")


def heads(folder):
    """Files of vectors that have heads and no call: a personality of no bytes, a state and a record of none, or a row of no records."""
    nothing = (0).to_bytes(2, "little")
    for name, parts in (("retimes", 3), ("whys", 3), ("seals", 4), ("cabinets", 3)):
        (folder / name).write_bytes(nothing * parts)
        yield name, folder / name


def build(*words):
    """Builds programs of rust/, if they are not built."""
    subprocess.run(["cargo", "build", "--quiet", "--offline", *words], cwd=ROOT / "rust", check=True)


def programs(folder):
    """The programs of rust/: with the library, and without it."""
    build("--release", "--features", "linked", "-p", "compare", "-p", "sheet")
    build("--release", "-p", "longest")
    build("-p", "compare", "-p", "sheet", "-p", "yellow")
    compare, sheet = BUILT / "compare", BUILT / "sheet"
    for mode in ("roads", "cabinets", "retimes", "whys", "seals", "waits"):
        yield [compare, mode, os.devnull], NOTHING
    for mode, file in heads(folder):
        yield [compare, mode, file], NOTHING
    yield [compare, "1", "0"], NOTHING
    yield [compare, "1", "watch", "0"], "nothing is shown"
    yield [compare, "nosuch", os.devnull], "usage: compare"
    yield [sheet, "1", "0"], NOTHING
    yield [BUILT / "longest", os.devnull], "refused"
    for name, words in (("compare", ["1", "10"]), ("compare", ["1", "watch", "10000"]), ("compare", ["whys", ROOT / "vectors/whys"]),
                        ("sheet", ["1", "10"]), ("yellow", ["compare"])):
        yield [ROOT / "rust/target/debug" / name, *words], "no board library is linked"


def scripts():
    """Scripts without a part, a program or a name that there is."""
    subprocess.run([ROOT / "tools/install.sh", "node"], check=True)
    yield ["./test.sh", "nosuch"], "--after-proofs"
    yield ["examples/c/check.sh", "nosuch"], "check.sh needs"
    yield ["targets/check.sh", "nosuch"], "check.sh refusals"
    yield ["targets/build.sh", "nosuch"], "nosuch: expected one or more of"
    yield ["targets/build.sh"], "no target: expected one or more of"
    yield ["targets/replay/run.sh"], "targets/replay/run.sh"
    yield ["targets/replay/run.sh", "nosuch"], "nosuch: expected one or more of"
    yield ["workbench/check.sh", "nosuch"], "check.sh PART"
    yield ["node", "workbench/page/test/check.js", "nosuch"], "no such test"
    yield ["node", "workbench/page/test/check.js", "examplesLoad", "nosuch"], "no such test"
    yield ["tools/install.sh", "nosuch"], "'nosuch' is not a part"
    yield ["must-fail-rules/run.sh", "nosuch"], "nosuch"
    yield ["python3", "examples/endings.py", TRACE], "endings.py PROGRAM PROGRAM"
    yield ["python3", "examples/longest.py", BUILT / "longest"], "The exit status is 0 only if all of this is true"
    yield ["python3", "vectors/cabinet_lists.py"], "cabinet_lists.py PROGRAM"
    yield ["python3", "vectors/yellow.py", os.devnull], "not the table of yellow times"


def copies():
    """Checks in a copy of the repository from which something is taken away: what is done to the copy, the command, the words."""
    no_sites = lambda copy: without(copy, "examples/*/site*.txt")
    no_sheet = lambda copy: emptied(copy, "docs/DATA-SHEET.md")
    no_header = lambda copy: emptied(copy, "include/willowera.h")
    no_library = lambda copy: (copy / "target").unlink()
    for part in ("needs", "conditions", "steps", "settings"):
        yield no_library, ["examples/c/check.sh", part], "libwillowera.a"
    yield no_sheet, ["examples/c/check.sh", "settings"], "usage: settings"
    yield no_sheet, ["examples/c/check.sh", "yellow"], "usage: yellow"
    yield lambda copy: without(copy, "examples/*/road*.bin"), ["examples/c/check.sh", "road"], "road*.bin: No such file"
    yield lambda copy: without(copy, "examples/*/personality*.bin"), ["examples/c/check.sh", "conditions"], "FAILED: examples/*/personality*.bin"
    yield lambda copy: emptied(copy, "examples/c/words.txt"), ["examples/c/check.sh", "words"], "no case"
    yield no_header, ["python3", "targets/calls.py", "names"], "no call"
    yield no_sites, ["python3", "examples/build.py", "--check"], "nothing was checked"
    yield no_sites, ["python3", "examples/longest.py", BUILT / "longest", TRACE], "nothing was driven"
    yield no_sites, ["python3", "workbench/site-wasm/try.py", os.devnull], "nothing was tried"
    yield lambda copy: without(copy, "*.md", *(f"{name}/**/*.md" for name in COPIED if name not in ("include", "tools", "vectors"))), \
        ["python3", "docs/check_names.py"], "no document"
    yield lambda copy: emptied(copy, "docs/TRUSTED.md"), ["python3", "docs/trusted.py", "--check"], "not in docs/TRUSTED.md"
    yield lambda copy: emptied(copy, "docs/TUTORIAL.md"), ["python3", "workbench/tutorial/check.py", "/bin/true"], "it does not make site.txt"


def said(command, folder):
    """The exit status of a command and what it says."""
    done = subprocess.run([str(word) for word in command], cwd=folder, stdin=subprocess.DEVNULL, stdout=subprocess.PIPE, stderr=subprocess.STDOUT,
                          timeout=300, check=False)
    return done.returncode, done.stdout.decode(errors="replace")


def fault(command, words, folder):
    """Why a command that looked at nothing is not refused as it must be; nothing if it is."""
    status, text = said(command, folder)
    if status == 0:
        return f"passes, and says: {text[-300:]}"
    if words not in text or "Traceback" in text:
        return f"fails with status {status}, but does not say `{words}`: {text[-300:]}"
    return ""


def faults(room):
    for command, words in (*programs(room), *scripts()):
        yield command, fault(command, words, ROOT)
    for change, command, words in copies():
        copied = copy_into(room / "copy")
        change(copied)
        yield command, fault(command, words, copied)
    # A check that passes, or that fails and says something else, is noticed here.
    for command in (["true"], ["sh", "-c", "echo; exit 1"]):
        yield ["this script, of", *command], "" if fault(command, "nothing", ROOT) else "is not noticed"


def main():
    count = wrong = 0
    with tempfile.TemporaryDirectory() as room:
        for command, why in faults(Path(room)):
            count += 1
            if why:
                wrong += 1
                print(f"{' '.join(map(str, command))}: {why}", flush=True)
    print(f"{count} checks that looked at nothing, {wrong} not refused as they must be")
    return 1 if wrong else 0


if __name__ == "__main__":
    if sys.argv[1:]:
        sys.exit(__doc__)
    sys.exit(main())
