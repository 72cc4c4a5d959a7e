#!/usr/bin/env bash
# Checks the library for other processors, one part at a time:
#
#     check.sh refusals      every refusal of the build is made, with its sentence
#     check.sh archives      builds all targets; they export the calls of the header, and the code is of the kind that the target says
#     check.sh header        a C program that names every call of include/willowera.h compiles and links on each target with a compiler
#     check.sh stack         every target has a bound of its stack; steps under qemu: the painted stack is within it; only strict code runs if
#                            unaligned accesses are trapped
#     check.sh figures       code sizes and bounds of the stack are those in figures.txt
#
# The parts after `archives` take what it built. What is missing is installed (tools/install.sh).
set -u -o pipefail
cd "$(dirname "$0")/.." || exit 2

built=target/targets
tools=$(python3 targets/module.py tools) || exit 2
room=$(mktemp -d)
trap 'rm -rf "$room"' EXIT
sentence() { echo "targets/check.sh: $*" >&2; return 1; }

# ── archives ──

exports_of() { # ARCHIVE
    "$tools/llvm-nm" --defined-only --extern-only --format=just-symbols "$1" | grep '^willowera_' | sort
}
# shellcheck disable=SC2016 # the words are JavaScript
wasm_exports() { node -e '
    const module = new WebAssembly.Module(require("fs").readFileSync(process.argv[1]));
    const names = WebAssembly.Module.exports(module).map((one) => one.name);
    if (WebAssembly.Module.imports(module).length > 0) throw new Error("it has imports");
    for (const name of ["memory", "__heap_base"]) if (!names.includes(name)) throw new Error(`it does not export ${name}`);
    console.log(names.filter((name) => name.startsWith("willowera_")).sort().join("\n"));' "$1"; }

# Code for the core registers alone: the attributes of the archive name no floating-point unit, and no instruction is one of it.
is_soft() { # FOLDER
    ! "$tools/llvm-readelf" --arch-specific "$built/$1/libwillowera.a" | grep -qE 'FP_arch|ABI_VFP_args' &&
        ! "$tools/llvm-objdump" -d --no-show-raw-insn "$built/$1/libwillowera.a" | awk '$2 ~ /^v[a-z]/ { found = 1 } END { exit !found }'
}
# Code that the compiler made under the rule that no access is unaligned.
is_strict() { # FOLDER
    ! "$tools/llvm-readelf" --arch-specific "$built/$1/libwillowera.a" | grep -A1 CPU_unaligned_access | grep -q v6-style
}

archives() {
    tools/install.sh node || return
    # shellcheck disable=SC2046 # several targets
    targets/build.sh $(targets/build.sh --list) && targets/build.sh --strict cortex-m4 cortex-m4f || return
    python3 targets/calls.py names >"$room/names"
    for archive in "$built"/*/libwillowera.a; do
        diff "$room/names" <(exports_of "$archive") || sentence "$archive does not export the calls of the header" || return
    done
    diff "$room/names" <(wasm_exports "$built/wasm32/willowera.wasm") || sentence 'willowera.wasm does not export the calls of the header' || return
    for folder in cortex-m4 cortex-m4-strict cortex-m0plus; do is_soft $folder || sentence "$folder uses the floating-point unit" || return; done
    for folder in cortex-m4-strict cortex-m4f-strict cortex-m0plus; do is_strict $folder || sentence "$folder makes unaligned accesses" || return; done
    # the same two readings of archives that do have them
    if is_soft cortex-m4f || is_strict cortex-m4; then sentence 'cortex-m4f is read as soft, or cortex-m4 as strict'; fi
}

# ── header ──

# Compiles and links a program that names every call, with all warnings as errors; the linker keeps them all.
links() { # FOLDER COMPILER WORDS..
    folder=$1 compiler=$2
    shift 2
    "$compiler" -std=c11 -Wall -Wextra -Wpedantic -Wconversion -Wno-cast-function-type -Werror "$@" -Iinclude "$room/calls.c" \
        "$built/$folder/libwillowera.a" -o "$room/$folder" || sentence "a program with every call does not link for $folder" || return
    linked=$("$tools/llvm-nm" "$room/$folder" | grep -c ' T willowera_')
    echo "$folder: $linked calls linked by $compiler"
    [ "$linked" -eq "$(python3 targets/calls.py names | wc -l)" ] || sentence "the program for $folder does not have all calls of the header"
}
header() {
    tools/install.sh arm-none-eabi-gcc arm-linux-gnueabihf-gcc aarch64-linux-gnu-gcc riscv64-unknown-elf-gcc || return
    python3 targets/calls.py >"$room/calls.c"
    cortex='-mthumb --specs=nosys.specs -Wl,-z,noexecstack -mcpu='
    # shellcheck disable=SC2086 # several words
    links cortex-m4 arm-none-eabi-gcc ${cortex}cortex-m4 -mfloat-abi=soft &&
        links cortex-m4-strict arm-none-eabi-gcc ${cortex}cortex-m4 -mfloat-abi=soft &&
        links cortex-m4f arm-none-eabi-gcc ${cortex}cortex-m4 -mfloat-abi=hard -mfpu=fpv4-sp-d16 &&
        links cortex-m4f-strict arm-none-eabi-gcc ${cortex}cortex-m4 -mfloat-abi=hard -mfpu=fpv4-sp-d16 &&
        links cortex-m0plus arm-none-eabi-gcc ${cortex}cortex-m0plus &&
        links armv7-linux arm-linux-gnueabihf-gcc && links aarch64-linux aarch64-linux-gnu-gcc &&
        links riscv32 riscv64-unknown-elf-gcc -march=rv32imac -mabi=ilp32 --specs=picolibc.specs -Wl,--defsym=__flash_size=0x100000
}

# ── stack ──

# The deepest stack that a run counted, of accepted and refused calls.
painted() { # FOLDER PROGRAM WORDS..
    targets/measure/run.sh "$@" | awk '$7 == "stack" && $8 > deepest { deepest = $8 } END { print deepest + 0 }'
}
# The painted stack of steps of the largest example site is within the bound.
within_bound() { # FOLDER
    targets/measure/run.sh --linked "$1" targets/measure/flips.c "$room/linked" || return
    bound=$(python3 targets/stack.py "$1" "$room/linked" | awk '$1 == "willowera_step" { print $4 }') || return
    steps=$(painted "$1" examples/c/instructions.c "$largest" 2000) && flips=$(painted "$1" targets/measure/flips.c "$largest") || return
    echo "a step on $1: at most $bound bytes of stack; painted: $steps in 2,000 steps, $flips with each bit flipped"
    { [ "$steps" -gt 0 ] && [ "$steps" -le "$bound" ] && [ "$flips" -gt 0 ] && [ "$flips" -le "$bound" ]; } ||
        sentence "$1: the painted stack is deeper than the bound, or nothing was painted"
}
stack() {
    largest=examples/largest/personality.bin
    for object in "$built"/*/willowera.su; do python3 targets/stack.py "$(basename "$(dirname "$object")")" >/dev/null || return; done
    within_bound cortex-m4 && within_bound cortex-m4-strict || return
    targets/measure/run.sh --trap cortex-m4-strict targets/measure/flips.c $largest >/dev/null || sentence 'the strict archive makes an unaligned access' || return
    targets/measure/run.sh --trap cortex-m4 targets/measure/flips.c $largest >/dev/null 2>&1
    [ $? -eq 3 ] || sentence 'the other archive ran, too: unaligned accesses were not trapped'
}

case "${1:-}" in
refusals) python3 targets/refusals.py ;;
archives | header | stack) "$1" ;;
figures) targets/figures.sh fixed | diff targets/figures.txt - || sentence 'targets/figures.txt is not what targets/figures.sh fixed prints' ;;
*)
    sed -n '2,12s/^# \{0,1\}//p' "$0"
    exit 2
    ;;
esac
