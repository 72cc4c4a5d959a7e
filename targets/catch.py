"""Catches the module of bitcode that a driver of the kit hands to clang.

The driver runs with a shadow of the kit: a folder of links to the kit, with a script in the place of clang that keeps the module and calls
the real clang. `rt` takes for the kit the folder that its own file stands in, so the shadow has copies of the scripts beside it.
"""

import os
import re
import shutil
import subprocess

from kit import ROOT, Refused, kit, said_by, tool

COPIED = ("rt", "rtlib.py")

STAND_IN = """#!/bin/sh
# Stands in for clang: keeps the words of each call, the module it is given and the object that it makes.
PATH=/usr/bin:/bin
number=$(ls "{caught}" | grep -c words)
printf '%s\\n' "$@" >"{caught}/words.$number"
input= output= last=
for word in "$@"; do
    case $last in -o) output=$word ;; esac
    case $word in *.bc) input=$word ;; esac
    last=$word
done
"{clang}" "$@" || exit
[ -z "$input" ] || cp "$input" "{caught}/module.bc"
[ -z "$output" ] || cp "$output" "{caught}/module.o"
"""


def link_all(real, shadow, inside):
    """Fills `shadow` with links to what `real` has; the path `inside` becomes folders of links, and its last part is left out."""
    shadow.mkdir(parents=True)
    for entry in real.iterdir():
        if entry.name != inside[0]:
            (shadow / entry.name).symlink_to(entry)
    if len(inside) > 1:
        link_all(real / inside[0], shadow / inside[0], inside[1:])


def shadow_kit(folder, caught):
    """A kit in `folder` whose clang keeps what it is given in `caught`."""
    home = kit()
    real = tool("clang")
    link_all(home, folder, real.relative_to(home).parts)
    (folder / "bin").unlink()
    (folder / "bin").mkdir()
    for entry in (home / "bin").iterdir():
        if entry.name in COPIED:
            shutil.copy(entry, folder / "bin")
        else:
            (folder / "bin" / entry.name).symlink_to(entry)
    clang = folder / real.relative_to(home)
    clang.write_text(STAND_IN.format(clang=real.resolve(), caught=caught))
    clang.chmod(0o755)
    return folder


def one_call(caught):
    """Refuses unless clang was called once, with one module, and made one object."""
    calls = sorted(caught.glob("words.*"))
    if len(calls) != 1:
        raise Refused(f"the kit called clang {len(calls)} times: one call with one module of the whole library was expected")
    words = calls[0].read_text().split("\n")[:-1]
    inputs = [word for word in words if re.search(r"\.(bc|ll|c|o|s|S)$", word) and words[words.index(word) - 1] != "-o"]
    if len(inputs) != 1 or not inputs[0].endswith(".bc") or not (caught / "module.bc").exists():
        raise Refused(f"the kit called clang with {inputs or 'no input'}: one module of bitcode was expected")
    if "-c" not in words or not (caught / "module.o").exists():
        raise Refused("the kit did not have clang make one object of the module")


def catch(folder, driver):
    """Runs `driver` (words of a command) with a shadow of the kit in `folder`. Returns the folder with module.bc and module.o."""
    shutil.rmtree(folder, ignore_errors=True)
    caught = folder / "caught"
    caught.mkdir(parents=True)
    home = shadow_kit(folder / "kit", caught)
    path = f"{home / 'bin'}{os.pathsep}{os.environ['PATH']}"
    said = subprocess.run(driver, cwd=ROOT, env={**os.environ, "PATH": path}, stdin=subprocess.DEVNULL,
                          stdout=subprocess.PIPE, stderr=subprocess.STDOUT, text=True)
    if said.returncode != 0:
        raise Refused(f"{said.stdout}'{' '.join(driver)}' failed: the library is not proved, and no archive is built")
    one_call(caught)
    return caught


def same_object(caught, archive):
    """Refuses unless the archive for x86-64 is the object that clang made of the module, and nothing else."""
    members = said_by(tool("llvm-ar"), "t", archive).split()
    held = subprocess.run([tool("llvm-ar"), "p", archive], stdout=subprocess.PIPE, check=True).stdout
    if len(members) != 1 or held != (caught / "module.o").read_bytes():
        raise Refused(f"{archive} has the members {members}: one was expected, the object that clang made of the module")
