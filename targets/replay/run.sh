#!/usr/bin/env bash
# Replays calls of the library on other processors: each call must give the same answer, and leave the same bytes, as on the host.
#
#     targets/replay/run.sh [--seed N] [--calls N] TARGET..    records calls on the host, and replays them on each target
#     targets/replay/run.sh --damaged [--seed N] TARGET..      the player of each target must notice damaged recordings
#     targets/replay/run.sh --list                             prints the targets
#
# It builds what is missing, and prints a line for each target. The exit status is 0 if every call agrees on every target. README.md says how
# each target is run.
set -u -o pipefail
cd "$(dirname "$0")/../.." || exit 2

targets='host cortex-m4 cortex-m4-strict cortex-m4f cortex-m4f-strict cortex-m0plus armv7-linux aarch64-linux riscv32 wasm32'
here=targets/replay
built=target/replay
library=target/staticlib/libwillowera.a
seconds=900 # a player that takes longer is ended

usage() { sed -n '4,6s/^# *//p' "$0" >&2; exit 2; }

# ── A target: its compiler, the words to build a player with, and its emulator ──

compiler() {
    case "$1" in
    host) echo cc ;;
    cortex-*) echo arm-none-eabi-gcc ;;
    armv7-linux) echo arm-linux-gnueabihf-gcc ;;
    aarch64-linux) echo aarch64-linux-gnu-gcc ;;
    riscv32) echo riscv64-unknown-elf-gcc ;;
    esac
}

bare() { echo "-ffreestanding -nostartfiles -Wl,-z,noexecstack -T $here/$1.ld $here/bare.c $here/$1.c"; }

# The object for copies in a strict archive has enumerations of another size than this compiler's; none is in its interface.
cortex() { echo "-mthumb $* -Wl,--no-enum-size-warning $(bare cortex)"; }

words() {
    case "$1" in
    host) echo "$here/hosted.c" ;;
    *-linux) echo "-static $here/hosted.c" ;;
    cortex-m4f*) cortex -mcpu=cortex-m4 -mno-unaligned-access -mfloat-abi=hard -mfpu=fpv4-sp-d16 ;;
    cortex-m4*) cortex -mcpu=cortex-m4 -mno-unaligned-access -mfloat-abi=soft ;;
    cortex-m0plus) cortex -mcpu=cortex-m0plus -mfloat-abi=soft ;;
    riscv32) echo "-march=rv32imac -mabi=ilp32 --specs=picolibc.specs -Wl,--no-relax $(bare riscv)" ;;
    esac
}

emulator() {
    case "$1" in
    cortex-*) echo qemu-system-arm ;;
    armv7-linux) echo qemu-arm ;;
    aarch64-linux) echo qemu-aarch64 ;;
    riscv32) echo qemu-riscv32 ;;
    wasm32) echo node ;;
    esac
}

archive() {
    case "$1" in
    host) echo "$library" ;;
    wasm32) echo target/targets/wasm32/willowera.wasm ;;
    *) echo "target/targets/$1/libwillowera.a" ;;
    esac
}

# ── Building ──

# Builds the library for a target if it is missing or older than the host's.
build_archive() { # TARGET
    [ ! "$(archive "$1")" -nt "$library" ] || return 0
    case "$1" in
    host) ;;
    *-strict) targets/build.sh "${1%-strict}" --strict >/dev/null ;;
    *) targets/build.sh "$1" >/dev/null ;;
    esac
}

build_player() { # TARGET
    # shellcheck disable=SC2046 # a word each
    { [ "$1" = host ] || tools/install.sh $(compiler "$1") $(emulator "$1"); } && build_archive "$1" || return 1
    # shellcheck disable=SC2046 # words
    [ "$1" = wasm32 ] || "$(compiler "$1")" -std=c11 -O2 -Wall -Wextra -Wconversion -Werror -Iinclude $(words "$1") "$here/player.c" \
        "$(archive "$1")" -o "$built/$1"
}

record() { # SEED CALLS FILE
    [ -e "$library" ] || tools/library.sh || return 1
    (cd rust && cargo build --quiet --release --offline --features linked -p record) && rust/target/release/record "$@"
}

# ── Playing ──

# Plays on the board without an operating system. With the word trap an unaligned access faults.
play_on_cortex() { # TARGET RECORDING [trap]
    local lent="enable=on,target=native,arg=player,arg=$2${3:+,arg=$3}"
    timeout "$seconds" qemu-system-arm -M mps2-an386 -cpu cortex-m4 -display none -monitor none -serial none -semihosting-config "$lent" \
        -kernel "$built/$1" </dev/null 2>&1
}

play() { # TARGET RECORDING
    case "$1" in
    *-strict | cortex-m0plus) play_on_cortex "$1" "$2" trap ;;
    cortex-*) play_on_cortex "$1" "$2" ;;
    host) timeout "$seconds" "$built/host" "$2" </dev/null 2>&1 ;;
    wasm32) timeout "$seconds" node "$here/player.mjs" "$(archive wasm32)" "$2" </dev/null 2>&1 ;;
    *) timeout "$seconds" "$(emulator "$1")" "$built/$1" "$2" </dev/null 2>&1 ;;
    esac
}

replay() { # TARGET
    local said status
    said=$(play "$1" "$built/recording")
    status=$?
    printf '%-18s%s\n' "$1" "$(tail -n 1 <<<"$said")"
    [ "$status" -eq 0 ] || { head -n -1 <<<"$said" && echo "exit status $status"; }
    return "$status"
}

# Each damaged copy gives the status and the texts that damage.py expects.
try_damage() { # TARGET
    local name status one other said got count=0 wrong=0
    while IFS=$'\t' read -r name status one other; do
        said=$(play "$1" "$built/damaged/$name")
        got=$?
        count=$((count + 1))
        if [ "$got" -ne "$status" ] || [[ "$said" != *"$one"* ]] || [[ "$said" != *"$other"* ]]; then
            wrong=$((wrong + 1))
            printf '%s: %s: expected status %s, "%s" and "%s", got status %s and: %s\n' "$1" "$name" "$status" "$one" "$other" "$got" "$said"
        fi
    done <"$built/damaged/expected"
    printf '%-18s%s\n' "$1" "$count damaged recordings, $wrong not noticed"
    [ "$count" -gt 0 ] && [ "$wrong" -eq 0 ] && { [ "$1" != cortex-m4-strict ] || try_trap; }
}

# The recording makes code that is not strict try unaligned accesses, and the trap notices one.
try_trap() {
    local said
    build_player cortex-m4 || return 1
    said=$(play_on_cortex cortex-m4 "$built/short" trap)
    if [ $? -eq 3 ] && [[ "$said" = *'fault: an unaligned access'* ]]; then
        echo 'cortex-m4         with the trap: an unaligned access is noticed'
    else
        echo "cortex-m4         with the trap: expected a fault, got: $said"
        return 1
    fi
}

seed=1
calls=100000
damaged=''
while [ $# -gt 0 ]; do
    case "$1" in
    --seed | --calls)
        [[ "${2:-}" =~ ^[0-9]+$ ]] || usage
        if [ "$1" = --seed ]; then seed=$2; else calls=$2; fi
        shift
        ;;
    --damaged) damaged=yes ;;
    --list) tr ' ' '\n' <<<"$targets" && exit 0 ;;
    *) break ;;
    esac
    shift
done
[ $# -gt 0 ] || usage
for target in "$@"; do
    [[ " $targets " = *" $target "* ]] || { echo "$here/run.sh: $target: expected one or more of $targets" >&2 && exit 2; }
done
mkdir -p "$built"

if [ -n "$damaged" ]; then
    rm -rf "$built/damaged" && mkdir "$built/damaged"
    record "$seed" 0 "$built/short" >/dev/null && python3 "$here/damage.py" "$built/short" "$built/damaged" "$seed" || exit 1
else
    record "$seed" "$calls" "$built/recording" || exit 1
fi
status=0
for target in "$@"; do
    if ! build_player "$target"; then
        status=1
    elif [ -n "$damaged" ]; then
        try_damage "$target" || status=1
    else
        replay "$target" || status=1
    fi
done
exit "$status"
