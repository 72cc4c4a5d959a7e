"""The library as one module of LLVM, for compilers of other processors.

    python3 targets/module.py          builds the library, catches its module if the crates changed, judges it, and prints the path of its text
    python3 targets/module.py tools    prints the folder with the programs that the kit's clang holds (llvm-nm and others)

tools/library.sh proves the library and builds its archive. For that `rt lib` hands the kit's clang one module of bitcode, which is caught
(targets/catch.py). It is kept in target/targets/module beside a checksum of the kit and of every crate, and caught again if the checksum differs.

The text that other compilers read is the module but for one attribute, the name of the processor x86-64. It must name nothing that is
bound to a machine (targets/judge.py).
"""

import hashlib
import shutil
import subprocess
import sys
import tempfile
from pathlib import Path

from catch import catch, same_object
from judge import judge
from kit import BUILT, ROOT, TOOLS, Alone, Refused, kit, said_by, told, tool
from unpack import unpacked

KEPT = BUILT / "module"
ARCHIVE = ROOT / "target" / "staticlib" / "libwillowera.a"
PROCESSOR = ' "target-cpu"="x86-64"'


def text_of(bitcode):
    """A module as text, unchanged."""
    return said_by(tool("clang"), "-S", "-emit-llvm", "-Xclang", "-disable-llvm-passes", "-x", "ir", bitcode, "-o", "-")


def checksum():
    """A checksum of all that the module is made of: the kit, the order of the crates, and their files."""
    total = hashlib.sha256((kit() / "KIT-ID").read_bytes())
    scripts = (ROOT / name for name in ("crates.txt", "tools/library.sh", "targets/module.py", "targets/catch.py"))
    sources = (path for folder in ("src", "specs", "proofs") for path in (ROOT / "crates").glob(f"*/{folder}/**/*"))
    for path in [*scripts, *sorted(sources)]:
        if path.is_file():
            total.update(f"{path.relative_to(ROOT)}\n".encode() + hashlib.sha256(path.read_bytes()).digest())
    return total.hexdigest()


def module():
    """The path of the module's text. The module is caught if the crates changed, and judged every time."""
    KEPT.mkdir(parents=True, exist_ok=True)
    key, text = KEPT / "checksum", KEPT / "module.ll"
    now = checksum()
    if not ARCHIVE.exists() or not text.exists() or not key.exists() or key.read_text() != now:
        key.unlink(missing_ok=True)
        # The crates that the library uses are built first, by the kit itself, which takes what an earlier check kept.
        subprocess.run(["tools/library.sh"], cwd=ROOT, stdin=subprocess.DEVNULL, stdout=sys.stderr, check=True)
        with tempfile.TemporaryDirectory() as room:
            caught = catch(Path(room) / "catch", ["tools/library.sh"])
            same_object(caught, ARCHIVE)
            shutil.copy(caught / "module.bc", KEPT / "module.bc")
        text.write_text(unpacked(text_of(KEPT / "module.bc").replace(PROCESSOR, "")))
        key.write_text(now)
    judge(text.read_text())
    return text


def main():
    with Alone():
        if sys.argv[1:] == ["tools"]:
            print({tool(name).parent for name in TOOLS}.pop())
        elif not sys.argv[1:]:
            print(module())
        else:
            raise Refused("usage: module.py [tools]")


if __name__ == "__main__":
    told(main)
