"""Prints a C program that names every call of include/willowera.h, so that compiling and linking it needs each of them.

    python3 targets/calls.py           the program
    python3 targets/calls.py names     the names of the calls, sorted
"""

import re
import sys
from pathlib import Path

HEADER = Path(__file__).resolve().parent.parent / "include" / "willowera.h"


def names():
    text = re.sub(r"/\*.*?\*/", "", HEADER.read_text(), flags=re.S)
    return sorted(re.findall(r"^\w+ (willowera_\w+)\(", text, flags=re.M)) or sys.exit(f"{HEADER}: no call of the library is in it")


def program():
    """The index is not known before the program runs, so that no compiler or linker can drop a call."""
    table = "".join(f"    (call){name},\n" for name in names())
    return ('#include "willowera.h"\n\ntypedef void (*call)(void);\nstatic const call calls[] = {\n' + table +
            "};\n\nint main(void)\n{\n    volatile unsigned index = 0;\n    return calls[index] == 0;\n}\n")


if __name__ == "__main__":
    print("\n".join(names()) if sys.argv[1:] == ["names"] else program(), end="\n" if sys.argv[1:] else "")
