#!/usr/bin/env bash
# Builds the firmware with arm-none-eabi-gcc and the library for Cortex-M4:
#
#     build.sh [PERSONALITY [ELF]]     without words: the junction of two phases, target/examples/cortex-m4/firmware.elf
#
# LIBRARY names the archive; without it, it is built by targets/build.sh. MAIN names another main.c.
set -eu
cd "$(dirname "$0")/../.."

here=examples/cortex-m4
library=${LIBRARY:-target/targets/cortex-m4/libwillowera.a}
site=${1:-examples/two_phases/personality.bin}
elf=${2:-target/$here/firmware.elf}

tools/install.sh arm-none-eabi-gcc
[ -n "${LIBRARY:-}" ] || targets/build.sh cortex-m4 >/dev/null
mkdir -p "$(dirname "$elf")"
arm-none-eabi-gcc -std=gnu11 -Wall -Wextra -Wconversion -Werror -g -O2 -mcpu=cortex-m4 -mthumb -mfloat-abi=soft -ffunction-sections \
    -DSITE="\"$site\"" -Iinclude -Iexamples/c "-I$here" "${MAIN:-$here/main.c}" "$here/board.c" "$here/startup.c" "$library" \
    -nostartfiles -T "$here/link.ld" -Wl,--gc-sections,-z,noexecstack -o "$elf"
arm-none-eabi-size "$elf"
