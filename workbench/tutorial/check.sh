#!/usr/bin/env bash
# Builds the command and runs docs/TUTORIAL.md with it. The static library must stand in target/staticlib.
set -eu
here=$(cd "$(dirname "$0")" && pwd)
"$here/../cargo.sh" build --quiet -p workbench
python3 "$here/check.py" "${CARGO_TARGET_DIR:-$here/../../target/workbench}/debug/willowera"
