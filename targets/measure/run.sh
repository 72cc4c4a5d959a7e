#!/usr/bin/env bash
# Builds a program of the library for Cortex-M4 with Debian's compiler and newlib, and runs it under qemu (machine mps2-an386) with its calls
# of willowera_step counted (wrap.c). What the program and the counts print goes to standard output.
#
#     targets/measure/run.sh [--trap] FOLDER PROGRAM.c WORDS..     FOLDER: cortex-m4 or cortex-m4-strict, below target/targets
#     targets/measure/run.sh --linked FOLDER PROGRAM.c FILE        only links it, to FILE
#
# --trap: the core traps unaligned accesses during the calls; the exit status is 3 if one is trapped.
set -eu
cd "$(dirname "$0")/../.."
trap_words='' linked=''
case "$1" in
--trap) trap_words=-DSTRICT && shift ;;
--linked) linked=yes && shift ;;
esac
folder=$1 program=$2
shift 2
tools/install.sh arm-none-eabi-gcc qemu-system-arm
built=$(mktemp -d)
trap 'rm -rf "$built"' EXIT
[ -z "$linked" ] || built_program=$1
: "${built_program:=$built/program}"

arm-none-eabi-gcc -std=gnu11 -Wall -Wextra -O2 -mcpu=cortex-m4 -mthumb -mfloat-abi=soft $trap_words --specs=rdimon.specs -Iinclude \
    -Wl,--wrap=willowera_step -Wl,-z,noexecstack -Wl,--section-start=.vectors=0 targets/measure/vectors.c targets/measure/wrap.c "$program" \
    "target/targets/$folder/libwillowera.a" -o "$built_program"
[ -z "$linked" ] || exit 0

words=arg=$(basename "$program" .c)
for word in "$@"; do words=$words,arg=$word; done
timeout 300 qemu-system-arm -M mps2-an386 -nographic -monitor none -serial none -icount shift=10,sleep=off \
    -semihosting-config "enable=on,target=native,$words" -kernel "$built_program" </dev/null
