#!/usr/bin/env bash
# Builds target/workbench.html: the proved library and the reader of site texts as WebAssembly, if their sources have
# changed, then the page around them.
set -eu
cd "$(dirname "$0")/../.."
targets/build.sh wasm32 >/dev/null
workbench/site-wasm/build.sh
python3 workbench/page/build.py
