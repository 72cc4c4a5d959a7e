"""Shows that each refusal of the build is made, with its sentence (targets/check.sh refusals).

A small module stands for the library. It is accepted as it is; each damage to it is put through the kit's clang, so that the judge reads the
text that this clang writes, and must be refused with the sentence named. The same for drivers that call clang in another way, archives
that need an outside name, and call graphs without a bound of their stack.
"""

import subprocess
import sys
import tempfile
from pathlib import Path

import build
import stack
from catch import catch, same_object
from judge import judge
from kit import Refused, tool
from module import PROCESSOR, text_of

GOOD = '''target triple = "x86_64-unknown-linux-gnu"
@table = private unnamed_addr constant [3 x i8] c"@%\\22", align 1
define internal i64 @"willowera::asm"(ptr %a, i64 %b) #0 {
  %p = getelementptr inbounds nuw i8, ptr @table, i64 %b
  call void @llvm.memcpy.p0.p0.i64(ptr %a, ptr %p, i64 1, i1 false)
  ret i64 %b
}
define noundef i64 @willowera_one(ptr noundef %a0, i64 noundef %a1, i16 noundef %a2, double noundef %a3) #0 {
  %fence = call i64 @"willowera::asm"(ptr %a0, i64 %a1)
  ret i64 %fence
}
declare void @llvm.memcpy.p0.p0.i64(ptr, ptr, i64, i1)
attributes #0 = { nounwind "probe-stack"="inline-asm" "stack-probe-size"="3072" "target-cpu"="x86-64" }
'''

FIRST = "  %fence = call"


def before_call(lines, outside=""):
    """The damage that puts lines into the exported call, and others outside of it."""
    return lambda text: text.replace(FIRST, f"{lines}\n{FIRST}") + outside


def instead(old, new):
    return lambda text: text.replace(old, new)


# What is damaged, the damage, and a part of the sentence that refuses it.
MODULES = [
    ("inline assembly", before_call('  call void asm sideeffect "nop", ""()'), "line 17: it has inline assembly"),
    ("assembly beside the functions", instead("@table =", 'module asm "nop"\n@table ='), "it has inline assembly"),
    ("a vector", before_call("  %v = add <4 x i32> zeroinitializer, zeroinitializer"), "it has a vector"),
    ("a fence", before_call("  fence seq_cst"), "it has an atomic or volatile access"),
    ("an atomic sum", before_call("  %v = atomicrmw add ptr %a0, i64 1 seq_cst"), "it has an atomic or volatile access"),
    ("a pointer as a number", before_call("  %v = ptrtoint ptr %a0 to i64"), "it has a pointer as a number"),
    ("several values read at once", before_call("  %v = load { i8, ptr }, ptr %a0"), "it has a read or write of several values at once"),
    ("a long double", before_call("  %v = fpext double %a3 to x86_fp80"), "it has a type or calling convention of one processor"),
    ("a calling convention", instead("define noundef i64 @willowera_one", "define x86_vectorcallcc i64 @willowera_one"),
     "it has a type or calling convention of one processor"),
    ("a writable global", instead("private unnamed_addr constant", "internal global"), "table is a global that is not a constant table"),
    ("an outside global", instead("@table =", "@other = external constant i8\n@table ="), "other is a global that is not a constant table"),
    ("a table of pointers", instead("@table =", "@other = constant [1 x ptr] [ptr @table]\n@table ="), "other is a global that is not"),
    ("an outside name", before_call("  %v = call i32 @puts(ptr %a0)", "declare i32 @puts(ptr)"), "it needs the outside name puts"),
    ("an intrinsic of x86", before_call("  call void @llvm.x86.sse2.pause()", "declare void @llvm.x86.sse2.pause()"),
     "the intrinsic llvm.x86.sse2.pause is not on the list"),
    ("a call through a pointer", before_call("  call void %a0()"), "it calls through a pointer"),
    ("a step over a struct", before_call("  %v = getelementptr { ptr, i64 }, ptr %a0, i64 0, i32 1"), "it has an offset that is not counted in bytes"),
    ("a struct as a variable", before_call("  %v = alloca { ptr, i64 }"), "it has a variable that is not a number, a pointer or bytes"),
    ("a pointer of 8 bytes", before_call("  %v = alloca ptr\n  call void @llvm.memcpy.p0.p0.i64(ptr %v, ptr %a0, i64 8, i1 false)"),
     "it uses the place of a pointer as bytes"),
    ("a short answer", before_call("", "define i8 @willowera_two() {\n  ret i8 1\n}"), "willowera_two answers i8"),
    ("a struct as an argument", before_call("", "define i32 @willowera_two(ptr byval([8 x i8]) %a) {\n  ret i32 1\n}"), "willowera_two takes ptr byval"),
    ("features of a processor", instead('"target-cpu"', '"target-features"="+avx2" "target-cpu"'), 'the attribute "target-features"="+avx2"'),
    ("no exported call", instead("define noundef i64 @willowera_one", "define internal i64 @willowera_one"), "it exports no call"),
]

# What a driver does instead of calling clang once with one module, the script, and a part of the sentence.
CLANG = '"$(dirname "$(command -v rt)")"/../toolchain/bin/clang --target=x86_64-unknown-linux-gnu -Wno-override-module -x ir -c'
DRIVERS = [
    ("calls clang twice", f"{CLANG} module.bc -o a.o && {CLANG} module.bc -o b.o", "the kit called clang 2 times"),
    ("never calls clang", "true", "the kit called clang 0 times"),
    ("hands clang two modules", f"cp module.bc other.bc; {CLANG} module.bc other.bc", "one module of bitcode was expected"),
    ("hands clang text", f"{CLANG} good.ll -o a.o", "one module of bitcode was expected"),
    ("has clang make assembly", f"{CLANG.replace(' -c', ' -S')} module.bc -o a.s", "the kit did not have clang make one object"),
    ("fails", f"{CLANG} module.bc -o a.o; echo 'logic=refused'; exit 1", "the library is not proved"),
]

# What a call graph has, the graph, its frames, and a part of the sentence.
GRAPHS = [
    ("a function that calls itself", {"a": {"b"}, "b": {"c"}, "c": {"b"}}, "abc", "b calls itself: b, c, b"),
    ("a function without a frame", {"a": {"b"}, "b": set(), "c": set()}, "ab", "no stack is reported for c"),
]


def refused(what, sentence, action):
    """Whether the action is refused with the sentence."""
    try:
        action()
    except Refused as refusal:
        if sentence in str(refusal):
            return True
        print(f"{what}: refused, but with another sentence: {refusal}")
        return False
    print(f"{what}: not refused; expected: {sentence}")
    return False


def through_clang(text, room):
    """The text of a module as the kit's clang writes it."""
    path = room / "damaged.ll"
    path.write_text(text)
    return text_of(path)


def judged(text, room):
    judge(through_clang(text, room))


def driven(script, room):
    return catch(room / "catch", ["sh", "-c", f"cd {room} && {script}"])


def compiled(damage, room):
    """An archive for Cortex-M4 of a damaged module that nobody judged."""
    text = room / "damaged.ll"
    text.write_text(damage(GOOD).replace(PROCESSOR, ""))
    return build.archive("cortex-m4", False, text, room)


def needs(room):
    """An archive that needs a name which the table does not list, and a table that cannot be read."""
    puts = before_call("  %v = call i32 @puts(ptr %a0)", "declare i32 @puts(ptr)")
    yield refused("an archive that needs puts", "cortex-m4: the archive needs puts, which targets/needs.txt does not list",
                  lambda: compiled(puts, room))
    yield not (room / "libwillowera.a").exists()
    yield refused("a list with names too many", "which the archive does not need", lambda: build.check_list(compiled(lambda text: text, room), "cortex-m4"))
    wrong = room / "needs.txt"
    wrong.write_text("cortex-m4: memcpy\nmemset\n")
    yield refused("a table without a colon", "needs.txt:2: expected TARGET..: NAME..", lambda: build.allowed("cortex-m4", wrong))


def stacks(room):
    """Call graphs and archives without a bound of their stack."""
    for what, graph, names, sentence in GRAPHS:
        yield refused(what, sentence, lambda: stack.depths(graph, dict.fromkeys(names, 8)))
    compiled(before_call("  %v = alloca i8, i64 %a1\n  store volatile i8 1, ptr %v"), room)
    yield refused("a frame of changing size", "the frame is dynamic", lambda: stack.reported(room / "willowera.su"))
    compiled(before_call('  store volatile ptr @"willowera::asm", ptr %a0'), room)
    yield refused("the address of a function", "willowera_one uses the address of willowera::asm", lambda: stack.own_calls(room / "willowera.o"))


def all_of(room):
    (room / "good.ll").write_text(GOOD)
    subprocess.run([tool("clang"), "-c", "-emit-llvm", "-Wno-override-module", "-x", "ir", room / "good.ll", "-o", room / "module.bc"], check=True)

    judged(GOOD, room)
    for what, damage, sentence in MODULES:
        assert damage(GOOD) != GOOD, what
        yield refused(what, sentence, lambda: judged(damage(GOOD), room))

    caught = driven(f"{CLANG} module.bc -o a.o", room)
    same_object(caught, archive_of(room / "a.o", room))
    yield refused("an archive with another object", "one was expected", lambda: same_object(caught, archive_of(room / "good.ll", room)))
    for what, script, sentence in DRIVERS:
        yield refused(f"a driver that {what}", sentence, lambda: driven(script, room))

    yield from needs(room)
    yield from stacks(room)


def archive_of(member, room):
    made = room / "some.a"
    made.unlink(missing_ok=True)
    subprocess.run([tool("llvm-ar"), "rcsD", made, member], check=True)
    return made


def main():
    with tempfile.TemporaryDirectory() as room:
        seen = list(all_of(Path(room)))
    print(f"{sum(seen)} of {len(seen)} refusals made")
    return 0 if seen and all(seen) else 1


if __name__ == "__main__":
    sys.exit(main())
