#!/usr/bin/env bash
# Proves the library and builds it for C and Rust on x86-64: target/staticlib/libwillowera.a. What an earlier check proved is not proved again.
# The code is for every processor x86-64; without the flag the kit takes a later level (x86-64-v2).
# What the check says is kept in target/log/willowera_c.
set -u -o pipefail
cd "$(dirname "$0")/.." || exit 2

mkdir -p target/log target/staticlib
(cd crates/willowera_c && rt lib --cpu=x86-64) 2>&1 | tee target/log/willowera_c || { echo 'tools/library.sh: the library is not proved, and no archive is built' >&2; exit 1; }
cp crates/willowera_c/out/libwillowera_c.a target/staticlib/libwillowera.a
