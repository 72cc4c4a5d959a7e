#!/usr/bin/env bash
# Compiles the site library for WebAssembly with Debian's rustc: target/workbench/site.wasm.
# Installs the packages that are missing (as root).
set -eu
cd "$(dirname "$0")"
compiler=${RUSTC_WASM:-/usr/bin/rustc}
if ! { [ -x "$compiler" ] && [ -d /usr/lib/rustlib/wasm32-unknown-unknown ] && command -v wasm-ld >/dev/null; }; then
    ../../tools/install.sh wasm
fi
out=../../target/workbench/wasm
made=../../target/workbench/site.wasm
mkdir -p "$out"
if [ -e "$made" ] && [ -z "$(find src ../site/src ../../rust/willowera/src/refusal.rs build.sh -newer "$made")" ]; then exit 0; fi
flags=(--edition 2021 --target wasm32-unknown-unknown -C opt-level=s -C panic=abort -C lto=fat -C embed-bitcode=yes)
"$compiler" "${flags[@]:0:4}" -C opt-level=s -C panic=abort --crate-type rlib --crate-name site ../site/src/lib.rs --out-dir "$out"
"$compiler" "${flags[@]}" --crate-type cdylib --crate-name site_wasm src/lib.rs --extern "site=$out/libsite.rlib" \
    -C linker=wasm-ld -C strip=symbols --out-dir "$out"
mv "$out/site_wasm.wasm" "$made"
