"""Reads several values one by one, where the module reads them at once (targets/module.py).

A value of several parts, as the number and the pointer of an Option of a reference, lies in memory where x86-64 puts its parts. A read of all parts
at once would look for the pointer where the other processor puts it: 4 bytes on, not 8. So each such read becomes a read of each part at its
place in bytes, and the parts are put together again. The judge refuses a read or a write of several values that is left.
"""

import re

# How many bytes a part has on x86-64; it lies at a multiple of them.
WIDTHS = {"i1": 1, "i8": 1, "i16": 2, "i32": 4, "i64": 8, "ptr": 8, "double": 8}
READ = re.compile(r"^( *)(%[\w.]+) = load \{ ([^{}]+) \}, ptr (%[\w.]+), align \d+$", re.M)


def parts_read(match):
    indent, name, kinds, place = match.groups()
    parts = kinds.split(", ")
    if any(part not in WIDTHS for part in parts):
        return match[0]
    lines, at, whole = [], 0, "poison"
    for i, part in enumerate(parts):
        at += -at % WIDTHS[part]
        lines += [
            f"{name}.place{i} = getelementptr i8, ptr {place}, i64 {at}",
            f"{name}.part{i} = load {part}, ptr {name}.place{i}, align 1",
            f"{name if i == len(parts) - 1 else f'{name}.first{i}'} = insertvalue {{ {kinds} }} {whole}, {part} {name}.part{i}, {i}",
        ]
        at, whole = at + WIDTHS[part], f"{name}.first{i}"
    return "\n".join(indent + line for line in lines)


def unpacked(text):
    return READ.sub(parts_read, text)
