#!/usr/bin/env bash
# Tries the tests on a fresh machine. It makes a minimal Debian in a folder, with nothing but what the README says is needed, clones the last
# commit of this repository into it and runs ./test.sh there. Everything else must be installed by the repository's own scripts.
#
#     tools/fresh.sh                     the whole test
#     tools/fresh.sh --after-proofs      only the checks after rt ci, with what checks kept in crates/*/out (./test.sh --after-proofs)
#     tools/fresh.sh --keep ..           leaves the folder and prints its path
#
# It needs root, Debian's packages and some 8 GB in TMPDIR (else the system's folder for temporary files). The toolchain and Rust are those of
# this machine, bound in for reading only; the sources of packages are this machine's too. The exit status is that of the tests.
set -eu -o pipefail
cd "$(dirname "$0")/.."

keep='' words=()
for word in "$@"; do
    case $word in
    --after-proofs) words+=("$word") ;;
    --keep) keep=yes ;;
    *)
        sed -n '2,10s/^# \{0,1\}//p' "$0" >&2
        exit 2
        ;;
    esac
done
[ "$(id -u)" -eq 0 ] || { echo 'tools/fresh.sh: run as root' >&2; exit 2; }
tools/install.sh debootstrap
[ -z "$(git status --porcelain)" ] || echo 'tools/fresh.sh: the last commit is tried; changes that are not committed are left out'

# What the README says is needed: the toolchain and Rust, bound in, and Debian's packages of Python and of a C compiler.
kit=$(dirname "$(dirname "$(readlink -f "$(command -v rt)")")")
rust=$(rustc --print sysroot)
needed=python3,gcc,libc6-dev

begun=$(date +%s)
room=$(mktemp -d "${TMPDIR:-/tmp}/willowera-fresh.XXXXXX")
root=$room/root
ended() {
    umount --quiet "$root/sys" "$root/proc" 2>/dev/null || true # what debootstrap mounted, if it was interrupted
    if [ -n "$keep" ]; then echo "left: $root"; else rm -rf --one-file-system "$room"; fi
}
trap ended EXIT
trap 'exit 130' INT TERM

# ── A minimal Debian ──

# The sources of packages on this machine, as lines `deb SITE RELEASE COMPONENT`, for Debian's own releases.
release=$(. /etc/os-release && echo "$VERSION_CODENAME")
sources=$(apt-get indextargets --format 'deb $(SITE) $(RELEASE) $(COMPONENT)' 'Created-By: Packages' | sort -u | awk -v release="$release" '$3 ~ "^" release "(-|$)"')
site=$(awk -v release="$release" '$3 == release { print $2; exit }' <<<"$sources")
[ -n "$site" ] || { echo "tools/fresh.sh: no source of packages for Debian's release '$release' (apt-get update)" >&2; exit 1; }

debootstrap --variant=minbase "--include=$needed" "$release" "$root" "$site" >"$room/debootstrap.log" 2>&1 ||
    { tail -n 20 "$room/debootstrap.log" >&2; echo 'tools/fresh.sh: debootstrap failed' >&2; exit 1; }
echo "$sources" >"$root/etc/apt/sources.list"
apt-config dump | grep -E '^Acquire::(http|https|Check-Valid-Until)' >"$root/etc/apt/apt.conf.d/99machine" || true
cp -L /etc/resolv.conf /etc/hosts "$root/etc/"
chroot "$root" dpkg-query -W -f='${Package}\n' | sort >"$room/before"

# ── The repository, and what is proved of it ──

git clone --quiet --no-hardlinks . "$root/willowera"
if [ "${#words[@]}" -gt 0 ]; then
    for kept in crates/*/out; do if [ -d "$kept" ]; then cp -a "$kept" "$root/willowera/$kept"; fi; done
fi

# ── The tests, in a mount namespace of their own ──

status=0
export kit rust root
# shellcheck disable=SC2016 # the variables are those of the inner shell
unshare --mount --pid --fork --kill-child --propagation private bash -euc '
    mount -t proc proc "$root/proc"
    mount --rbind /dev "$root/dev"
    mount -t tmpfs tmpfs "$root/dev/shm"
    for folder in "$kit" "$rust"; do
        mkdir -p "$root$folder"
        mount --bind "$folder" "$root$folder"
        mount -o remount,bind,ro "$root$folder"
    done
    exec chroot "$root" env -i HOME=/root "PATH=$kit/bin:$rust/bin:/usr/sbin:/usr/bin:/sbin:/bin" ${http_proxy:+"http_proxy=$http_proxy"} \
        sh -c '\''cd /willowera && exec ./test.sh "$@"'\'' sh "$@"
' bash "${words[@]}" </dev/null 2>&1 | tee "$room/log" || status=$?

chroot "$root" dpkg-query -W -f='${Package}\n' | sort >"$room/after"
echo "A minimal Debian ($release) with $needed: $(($(wc -l <"$room/after") - $(wc -l <"$room/before"))) packages were installed, because the scripts asked for these:"
sed -n 's/^Commandline: .* --no-install-recommends /    /p' "$root/var/log/apt/history.log" | fold -s -w 120
echo "$((($(date +%s) - begun + 30) / 60)) minutes"
tail -n 1 "$room/log"
exit "$status"
