#!/usr/bin/env bash
# Installs the Debian packages that a part of the checks needs, if they are missing:
#
#     tools/install.sh PART..               installs what is missing
#     tools/install.sh --missing PART..     prints the packages that are missing, and installs nothing
#     tools/install.sh --list               prints every part with its packages
#
# A part that is there is left alone, so a second call costs nothing. Installing needs root and Debian's packages. The exit status is 0 if
# every part is there in the end, 1 if a package could not be installed, 2 if a part is not in the table.
set -u -o pipefail

# One line for each part: its name, a command or -, and its packages. A part with a command is there if the command is, whoever installed it.
# A part without one is there if all its packages are. Recommended packages are not installed, so everything that is needed is named: the
# browser has no font of its own.
table='
g++                      g++                      g++
node                     node                     nodejs
valgrind                 valgrind                 valgrind
debootstrap              debootstrap              debootstrap
arm-none-eabi-gcc        arm-none-eabi-gcc        gcc-arm-none-eabi libnewlib-arm-none-eabi
arm-linux-gnueabihf-gcc  arm-linux-gnueabihf-gcc  gcc-arm-linux-gnueabihf libc6-dev-armhf-cross
aarch64-linux-gnu-gcc    aarch64-linux-gnu-gcc    gcc-aarch64-linux-gnu libc6-dev-arm64-cross
riscv64-unknown-elf-gcc  riscv64-unknown-elf-gcc  gcc-riscv64-unknown-elf picolibc-riscv64-unknown-elf
qemu-system-arm          qemu-system-arm          qemu-system-arm
qemu-arm                 qemu-arm                 qemu-user
qemu-aarch64             qemu-aarch64             qemu-user
qemu-riscv32             qemu-riscv32             qemu-user
crates                   -                        librust-clap-dev librust-indicatif-dev librust-serde-json-dev librust-ctrlc-dev
wasm                     -                        rustc libstd-rust-dev-wasm32 lld
browser                  -                        chromium fonts-liberation fonts-dejavu-core
sumo                     -                        sumo sumo-tools
'

installed() { dpkg-query -W -f='${Status}' "$1" 2>/dev/null | grep -q 'ok installed'; }

# The missing packages of one part, a line each.
missing_of() { # PART
    read -r _ command packages < <(grep "^$1 " <<<"$table") || { echo "tools/install.sh: '$1' is not a part (tools/install.sh --list)" >&2; return 2; }
    if [ "$command" != - ] && command -v "$command" >/dev/null; then return 0; fi
    for package in $packages; do
        if [ "$command" != - ] || ! installed "$package"; then echo "$package"; fi
    done
}
missing() { # PART..
    for part in "$@"; do missing_of "$part" || return; done | sort -u | xargs -r
}
apt() { DEBIAN_FRONTEND=noninteractive apt-get -qq -o DPkg::Lock::Timeout=600 "$@" </dev/null >/dev/null; }
install() { apt install -y --no-install-recommends "$@"; }

case ${1:-} in
'' | -h | --help)
    sed -n '2,9s/^# \{0,1\}//p' "$0" >&2
    exit 2
    ;;
--list)
    sed '/^$/d' <<<"$table"
    exit 0
    ;;
--missing)
    shift
    missing "$@"
    exit
    ;;
esac

packages=$(missing "$@") || exit 2
[ -n "$packages" ] || exit 0
[ "$(id -u)" -eq 0 ] || { echo "tools/install.sh: run as root: apt-get install --no-install-recommends $packages" >&2; exit 1; }

# One installation at a time. The package lists are fetched only if the packages are not in them.
exec 9>"${TMPDIR:-/tmp}/willowera-install.lock" && flock 9
packages=$(missing "$@")
[ -n "$packages" ] || exit 0
# shellcheck disable=SC2086 # several packages
install $packages 2>/dev/null || { apt update && install $packages; }
left=$(missing "$@")
[ -z "$left" ] || { echo "tools/install.sh: still missing: $left" >&2; exit 1; }
