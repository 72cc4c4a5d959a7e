#!/usr/bin/env bash
# A short comparison for the gate: wrong controls are found, and four minutes of traffic run through under both controls.
set -eu
here=$(cd "$(dirname "$0")" && pwd)
"$here/../../tools/install.sh" sumo
"$here/../cargo.sh" build --quiet -p workbench
willowera=${CARGO_TARGET_DIR:-$here/../../target/workbench}/debug/willowera
site=$here/../tutorial/site.txt
python3 -B "$here/wrong_controls.py" "$site" "$willowera"
python3 -B "$here/compare.py" "$site" --seconds 240 --seeds 1 --walkers 90 --command "$willowera"
