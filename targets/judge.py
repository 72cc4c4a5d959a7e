"""What the text of a module must not name if it is to be compiled for other processors; and what it exports and calls."""

import re

from kit import Refused

# The intrinsics that mean the same on every processor.
PORTABLE = re.compile(
    r"llvm\.(memcpy|memmove|memset|assume|trap|expect|lifetime\.(start|end)"
    r"|[su](add|sub|mul)\.(with\.overflow|sat)|[su](min|max)|abs|ctpop|ctlz|cttz|bswap|bitreverse|fsh[lr]"
    r"|fabs|floor|ceil|trunc|rint|nearbyint|sqrt|fpto[su]i\.sat|is\.fpclass|arithmetic\.fence)\b")

STRINGS_ALLOWED = {'"probe-stack"="inline-asm"', '"stack-probe-size"="3072"', '"target-cpu"="x86-64"'}

# What a line must not have, its strings and names left out, and what that is.
BOUND = [
    (re.compile(r"\basm\b"), "inline assembly"),
    (re.compile(r"<(vscale x )?\d+ x "), "a vector"),
    (re.compile(r"\b(atomicrmw|cmpxchg|fence|atomic|volatile)\b"), "an atomic or volatile access"),
    (re.compile(r"\b(ptrtoint|ptrtoaddr|inttoptr|addrspacecast)\b|\baddrspace\("), "a pointer as a number, or an address space"),
    (re.compile(r"\b(x86_\w+|win64cc|ppc_fp128|fp128|half|bfloat|cc ?\d+)\b"), "a type or calling convention of one processor"),
    (re.compile(r"\b(invoke|landingpad|callbr|indirectbr|blockaddress)\b"), "an exception or an indirect branch"),
    (re.compile(r"\bgetelementptr (?!((inbounds|nuw|nusw) )*i8,)"), "an offset that is not counted in bytes"),
    (re.compile(r"\b(load|store) \{"), "a read or write of several values at once"),
    (re.compile(r"\balloca (?!(i8|i16|i32|i64|double|ptr|\[\d+ x i8\]),)"), "a variable that is not a number, a pointer or bytes"),
]

NAME = r'[@%](?:"[^"]*"|[\w.$-]+)'
GLOBAL = re.compile(rf"^({NAME}) = (.*)$")
TABLE = re.compile(r"((private|internal|unnamed_addr|local_unnamed_addr|dso_local) )*constant [^@]*")
DECLARED = re.compile(rf"^declare .*?({NAME})\(")
DEFINED = re.compile(rf"^define (.*?) ({NAME})\((.*)\) [^()]*\{{$")
CALLED = re.compile(rf"\bcall .*?({NAME})\(")
ATTRIBUTE = re.compile(r'"[^"]*"(?:="[^"]*")?')
SLOT = re.compile(rf"^ +({NAME}) = alloca ptr,")
POINTER_ACCESS = re.compile(rf"= load ptr, ptr {NAME},|^ +store ptr {NAME}, ptr {NAME},")
PARAMETER = re.compile(r"(ptr|i8|i16|i32|i64|double)( noundef)? @")


def plain(name):
    """A name without its sign and quotes."""
    return name[1:].strip('"')


def without_names(line):
    """A line with its strings emptied and its names taken out."""
    return re.sub(r'[@%$](""|[\w.$-]+)', "@", re.sub(r'"[^"]*"', '""', line))


def define_faults(head):
    """What the first line of a function has that would be passed in another way on another processor."""
    kind, name, parameters = head[1].split(), plain(head[2]), without_names(head[3])
    if "internal" in kind:
        return
    if kind[-1] not in ("i32", "i64", "void"):
        yield f"{name} answers {kind[-1]}, not 32 or 64 bits or nothing"
    for parameter in filter(None, parameters.split(", ")):
        if not PARAMETER.fullmatch(parameter):
            yield f"{name} takes {parameter}, not a pointer, a number of 8, 16, 32 or 64 bits, or a double"


def line_faults(line):
    """What one line of the text names that is bound to a machine, or that a library for another one cannot have."""
    bare = without_names(line)
    for pattern, what in BOUND:
        if pattern.search(bare):
            yield f"it has {what}"
    held, declared, called, head = GLOBAL.match(line), DECLARED.match(line), CALLED.search(line), DEFINED.match(line)
    if held and line.startswith("@") and (not TABLE.fullmatch(without_names(held[2])) or re.search(r"\bptr\b", without_names(held[2]))):
        yield f"{plain(held[1])} is a global that is not a constant table of numbers"
    if declared and not plain(declared[1]).startswith("llvm."):
        yield f"it needs the outside name {plain(declared[1])}"
    elif declared and not PORTABLE.match(plain(declared[1])):
        yield f"the intrinsic {plain(declared[1])} is not on the list of those that mean the same on every processor"
    if called and called[1].startswith("%"):
        yield "it calls through a pointer"
    if line.startswith("attributes "):
        for string in set(ATTRIBUTE.findall(line)) - STRINGS_ALLOWED:
            yield f"the attribute {string} may be bound to a machine"
    if head:
        yield from define_faults(head)
    elif line.startswith("define ") or (not called and re.search(r"\bcall\b", bare) and "asm" not in bare):
        yield "it cannot be read as a function or a call"


def slot_faults(lines):
    """A variable for one pointer has 8 bytes on x86-64 and 4 elsewhere: it must only be read and written as a pointer."""
    slots = set()
    for number, line in lines:
        if line.startswith("define "):
            slots = set()
        made = SLOT.match(line)
        if made:
            slots.add(made[1])
        elif slots.intersection(re.findall(NAME, line)) and not POINTER_ACCESS.search(line):
            yield f"line {number}: it uses the place of a pointer as bytes"


def faults(text):
    """A sentence for each line that other processors cannot have; empty if the module may be compiled for them."""
    lines = list(enumerate(text.splitlines(), 1))
    found = [f"line {number}: {fault}" for number, line in lines for fault in line_faults(line)] + list(slot_faults(lines))
    if not exported(text):
        found.append("it exports no call")
    return found


def judge(text):
    found = faults(text)
    if found:
        raise Refused("the module cannot be compiled for other processors:\n" + "\n".join(f"    {fault}" for fault in found[:20]))


def exported(text):
    """The names of the calls that the module gives to the outside, sorted."""
    heads = (DEFINED.match(line) for line in text.splitlines())
    return sorted(plain(head[2]) for head in heads if head and "internal" not in head[1].split())


def calls(text):
    """For each function of the module, the functions that it calls (intrinsics left out)."""
    graph, inside = {}, None
    for line in text.splitlines():
        head = DEFINED.match(line)
        if head:
            inside = graph.setdefault(plain(head[2]), set())
        called = CALLED.search(line)
        if called and inside is not None and not plain(called[1]).startswith("llvm."):
            inside.add(plain(called[1]))
    return graph
