"""The kit and its programs, refusals, and the folder of what is built: for the other programs here."""

import fcntl
import shutil
import subprocess
import sys
from pathlib import Path

ROOT = Path(__file__).resolve().parent.parent
BUILT = ROOT / "target" / "targets"
TOOLS = ["llvm-ar", "llvm-nm", "llvm-objcopy", "llvm-objdump", "llvm-readelf", "wasm-ld"]


class Refused(Exception):
    """A sentence for the user; nothing is built."""


def kit():
    """The folder of the kit, found as the command `rt` finds it."""
    command = shutil.which("rt")
    if command is None:
        raise Refused("the command rt is not on the path: install the Rattle kit")
    return Path(command).resolve().parent.parent


def tool(name):
    """A program of the kit's toolchain. Its clang holds several programs, and the name by which it is called says which. A script calls it so, and no
    link: `rt` refuses a repository with a link in it."""
    clang = kit() / "toolchain" / "bin" / "clang"
    if name == "clang":
        return clang
    script, text = BUILT / "tools" / name, f'#!/bin/bash\nexec -a {name} "{clang}" "$@"\n'
    if not script.exists() or script.read_text() != text:
        script.parent.mkdir(parents=True, exist_ok=True)
        script.write_text(text)
        script.chmod(0o755)
    said = subprocess.run([script, "--version"], stdin=subprocess.DEVNULL, stdout=subprocess.PIPE, stderr=subprocess.STDOUT, text=True).stdout
    if "LLVM version" not in said and "LLD" not in said:
        raise Refused(f"the kit's clang, {clang}, does not hold {name} any more")
    return script


def said_by(*words):
    """What a program prints; a failure of it is an error."""
    return subprocess.run(words, check=True, stdin=subprocess.DEVNULL, stdout=subprocess.PIPE, text=True).stdout


class Alone:
    """Only one build at a time writes to target/targets."""

    def __enter__(self):
        BUILT.mkdir(parents=True, exist_ok=True)
        self.file = open(BUILT / "lock", "w")
        fcntl.flock(self.file, fcntl.LOCK_EX)

    def __exit__(self, *_):
        self.file.close()


def told(main):
    """Runs a program; a refusal, or a failed command, becomes a sentence and exit status 1."""
    try:
        sys.exit(main())
    except Refused as refusal:
        sys.exit(f"{Path(sys.argv[0]).name}: {refusal}")
    except subprocess.CalledProcessError as failed:
        sys.exit(f"{Path(sys.argv[0]).name}: this command failed: {' '.join(map(str, failed.cmd))}")
