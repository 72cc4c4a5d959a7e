"""Builds the proved library for other processors (targets/build.sh; targets/README.md).

    build.py TARGET.. [--strict]     builds each target named
    build.py --list                  prints the targets

The one module of the library (targets/module.py) is compiled by the kit's clang. What an archive may need from outside is in
targets/needs.txt; a name that is not there is refused.
"""

import hashlib
import shutil
import subprocess
import sys

from judge import exported
from kit import BUILT, ROOT, Alone, Refused, kit, said_by, told, tool
from module import module

HERE = ROOT / "targets"

# Each target: the triple, the words for the processor, and the words for code without unaligned accesses. None: it never has any, or its
# processors all take them.
#
# -meabi gnu: copies and fills are called memcpy and memset, as on x86-64, and not __aeabi_memcpy.
CORTEX = "-meabi gnu -mcpu="
TARGETS = {
    "cortex-m4": ("thumbv7em-none-eabi", CORTEX + "cortex-m4 -mfloat-abi=soft", "-mno-unaligned-access"),
    "cortex-m4f": ("thumbv7em-none-eabihf", CORTEX + "cortex-m4 -mfloat-abi=hard -mfpu=fpv4-sp-d16", "-mno-unaligned-access"),
    "cortex-m0plus": ("thumbv6m-none-eabi", CORTEX + "cortex-m0plus -mfloat-abi=soft", None),
    "armv7-linux": ("armv7-linux-gnueabihf", "-mfpu=vfpv3-d16 -fPIC", None),
    "aarch64-linux": ("aarch64-linux-gnu", "-fPIC", None),
    "riscv32": ("riscv32-unknown-elf", "-march=rv32imac -mabi=ilp32", None),
    "wasm32": ("wasm32-unknown-unknown", "", None),
}

# As the kit compiles for x86-64, but for the processor.
COMMON = ("-ffunction-sections -fdata-sections -mllvm -trap-unreachable -mllvm -no-trap-after-noreturn -mllvm -disable-machine-licm "
          "-mllvm -disable-postra-machine-licm -mllvm -sink-common-insts=false --no-default-config -Werror")
LEVEL = "-O3"


def clang(target, strict, *words):
    triple, processor, strict_words = TARGETS[target]
    words = [tool("clang"), f"--target={triple}", *COMMON.split(), LEVEL, *processor.split(),
             *(strict_words.split() if strict else []), *words]
    subprocess.run(words, check=True, stdin=subprocess.DEVNULL)


def allowed(target, path=HERE / "needs.txt"):
    """The outside names that the archive of a target may need."""
    names = set()
    for number, line in enumerate(path.read_text().splitlines(), 1):
        head, colon, rest = line.split("#")[0].partition(":")
        if not colon and head.strip():
            raise Refused(f"{path}:{number}: expected TARGET..: NAME..")
        if target in head.split():
            names.update(rest.split())
    return names


def needed(path):
    """The names that an archive needs from outside: those that no member defines."""
    rows = [line.split() for line in said_by(tool("llvm-nm"), "--format=posix", path).splitlines() if line and not line.endswith(":")]
    return {row[0] for row in rows if row[1] == "U"} - {row[0] for row in rows if row[1] != "U"}


def check_needs(path, target):
    stray = needed(path) - allowed(target)
    if stray:
        path.unlink()
        raise Refused(f"{target}: the archive needs {', '.join(sorted(stray))}, which targets/needs.txt does not list")


def check_list(path, target):
    """A list that has a name too many would not show when the archive begins to need it."""
    stale = allowed(target) - needed(path)
    if stale:
        raise Refused(f"{target}: targets/needs.txt lists {', '.join(sorted(stale))}, which the archive does not need")


def archive(target, strict, text, folder):
    """An ELF archive: the object of the module, and for strict code the copies and fills that make no unaligned access either."""
    objects = [folder / "willowera.o"]
    clang(target, strict, "-c", "-x", "ir", text, "-Wno-override-module", "-fstack-usage", "-o", objects[0])
    if strict:
        objects.append(folder / "strict_memory.o")
        # -fno-builtin: a loop of memcpy is not itself made a call of memcpy; -fshort-enums: as arm-none-eabi-gcc, or its linker warns
        clang(target, strict, "-std=c11", "-ffreestanding", "-fno-builtin", "-fshort-enums", "-c", HERE / "strict_memory.c", "-o", objects[1])
    if target.startswith("cortex"):
        # tables for unwinding the stack: no function needs them, and a linker script without a place for them may put them before the data
        for path in objects:
            said_by(tool("llvm-objcopy"), "--wildcard", "--remove-section=*.ARM.exidx*", path)
    made = folder / "libwillowera.a"
    subprocess.run([tool("llvm-ar"), "rcsD", "--format=gnu", made, *objects], check=True)
    check_needs(made, target)
    return made


def web_module(target, text, folder):
    """A module for WebAssembly: every call of the library, its memory and the first free byte of it. An outside name is an error. The
    memory has 64 KiB for the stack and 64 KiB for buffers."""
    compiled, made = folder / "willowera.o", folder / "willowera.wasm"
    clang(target, False, "-c", "-x", "ir", text, "-Wno-override-module", "-o", compiled)
    names = [f"--export={name}" for name in (*exported(text.read_text()), "__heap_base")]
    said_by(tool("wasm-ld"), "--no-entry", "-zstack-size=65536", "--initial-memory=131072", *names, compiled, "-o", made)
    return made


def made_of(text):
    """A checksum of all that an archive is made of."""
    parts = [text, kit() / "KIT-ID", *(HERE / name for name in ("build.py", "strict_memory.c", "needs.txt"))]
    return hashlib.sha256(b"".join(part.read_bytes() for part in parts)).hexdigest()


def build(target, strict, text):
    """Builds a target, unless it was built of the same parts before."""
    if strict and TARGETS[target][2] is None:
        raise Refused(f"{target} has no strict build: its code is strict already, or its processors take unaligned accesses")
    folder = BUILT / (target + "-strict" if strict else target)
    made, mark = folder / ("willowera.wasm" if target == "wasm32" else "libwillowera.a"), folder / "made_of"
    if made.exists() and mark.exists() and mark.read_text() == made_of(text):
        return made
    shutil.rmtree(folder, ignore_errors=True)
    folder.mkdir(parents=True)
    if target == "wasm32":
        web_module(target, text, folder)
    else:
        archive(target, strict, text, folder)
        if not strict:
            check_list(made, target)
    mark.write_text(made_of(text))
    return made


def main():
    words = sys.argv[1:]
    if words == ["--list"]:
        print("\n".join(TARGETS))
        return
    targets = [word for word in words if word != "--strict"]
    unknown = [word for word in targets if word not in TARGETS]
    if not targets or unknown:
        raise Refused(f"{' '.join(unknown) or 'no target'}: expected one or more of {' '.join(TARGETS)}, and --strict or not")
    with Alone():
        text = module()
        for target in targets:
            print(build(target, "--strict" in words, text).relative_to(ROOT))


if __name__ == "__main__":
    told(main)
