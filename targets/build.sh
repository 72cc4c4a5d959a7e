#!/bin/sh
# Builds the proved library for another processor: target/targets/TARGET/libwillowera.a, or willowera.wasm.
#
#     targets/build.sh TARGET.. [--strict]     targets/build.sh --list has the targets, targets/README.md what each is for
exec python3 "$(dirname "$0")/build.py" "$@"
