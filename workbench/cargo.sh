#!/usr/bin/env bash
# Runs cargo in this workspace with Debian's Rust libraries in place of the registry, offline: cargo.sh build --release
# With a registry at hand plain cargo does the same, with the newest versions that Cargo.toml allows. The lock file of Debian's libraries
# does not fit a registry, so it does not stay.
set -eu
here=$(cd "$(dirname "$0")" && pwd)
"$here/../tools/install.sh" crates
export CARGO_TARGET_DIR=${CARGO_TARGET_DIR:-$here/../target/workbench}
cd "$here"
trap 'rm -f Cargo.lock' EXIT
cargo --offline --config 'source.crates-io.replace-with="debian"' \
    --config 'source.debian.directory="/usr/share/cargo/registry"' "$@"
