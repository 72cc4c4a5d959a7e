#!/usr/bin/env bash
# Tests the workbench: check.sh PART, with the library in target/staticlib. The exit status is 0 if the part passes.
#
#   site       site texts: the examples, the generator's personalities there and back, mistakes, refusals in words
#   command    the command `willowera` on the examples and on texts that are wrong
#   pictures   every picture and report is well-formed, and a damaged one is noticed
#   wasm       the site library for the page, compiled and tried in a browser
set -eu
here=$(cd "$(dirname "$0")" && pwd)
cd "$here"

room=$(mktemp -d)
trap 'rm -rf "$room"' EXIT

# Whether the texts are well-formed XML.
well_formed() { # FILE..
    python3 - "$@" <<'PYTHON'
import sys
import xml.etree.ElementTree as tree
for name in sys.argv[1:]:
    try:
        tree.parse(name)
    except tree.ParseError as why:
        sys.exit(f"{name}: {why}")
PYTHON
}

pictures() {
    ./cargo.sh build --quiet -p workbench
    willowera=${CARGO_TARGET_DIR:-../target/workbench}/debug/willowera
    # Names with signs that XML must not have.
    mkdir "$room/signs"
    sed -e 's/name "[^"]*"/name "A \& B <c>"/' -e 's/"eastbound"/"<east> \& out"/' examples/four_arms/site.txt >"$room/signs/site.txt"
    cp examples/four_arms/inputs.txt "$room/signs/"
    for text in ../examples/*/site.txt examples/*/site.txt "$room/signs/site.txt"; do
        folder=$(dirname "$text")
        name=$(basename "$folder")
        "$willowera" run "$folder" --inputs "$folder/inputs.txt" --svg "$room/$name-run.svg" >"$room/$name.txt"
    done
    "$willowera" road "$room/signs" --steps 3000 --svg "$room/queues.svg" --timeline "$room/timeline.svg" >"$room/road.txt"
    printf 'steps 1000\ndetector 0 group V1 rate 500\n' >"$room/road_short.txt"
    "$willowera" report "$room/signs" --streams "$room/road_short.txt" --out "$room/report.html"
    # The page is HTML; without its first and third line and the closed empty elements it is XML too.
    sed -e '/<!DOCTYPE html>/d' -e '/<meta /d' -e 's/<br>/<br\/>/g' "$room/report.html" >"$room/report.xml"
    well_formed "$room"/*.svg "$room/report.xml"
    head -c 2000 "$room/queues.svg" >"$room/damaged.svg"
    if well_formed "$room/damaged.svg" 2>/dev/null; then
        echo 'a damaged picture is not noticed'
        return 1
    fi
    echo "$(ls "$room"/*.svg | wc -l) pictures (one of them damaged and noticed) and a report"
}

# The Python builder, which shares nothing with the site library, makes the same bytes of the workbench's own examples.
same_as_python() {
    willowera=${CARGO_TARGET_DIR:-../target/workbench}/debug/willowera
    for text in examples/*/site.txt; do
        "$willowera" build "$text" --out "$room/built.bin"
        python3 - "$text" "$room/built.bin" <<'PYTHON'
import sys
from pathlib import Path
sys.dont_write_bytecode = True
sys.path.insert(0, "../examples")
import build
site, stated = build.site_of(Path(sys.argv[1]))
if build.personality_of(site) != Path(sys.argv[2]).read_bytes() or build.wait_bound(site) != stated:
    sys.exit(f"{sys.argv[1]}: the Python builder makes other bytes or another wait bound")
PYTHON
    done
}

case ${1:-} in
site) ./cargo.sh test --quiet -p site ;;
command) ./cargo.sh test --quiet -p workbench && same_as_python ;;
pictures) pictures ;;
wasm)
    ../tools/install.sh browser
    site-wasm/build.sh
    python3 site-wasm/try.py ../target/workbench/site.wasm
    ;;
*)
    sed -n '2,7s/^# \{0,1\}//p' "$here/check.sh" >&2
    exit 2
    ;;
esac
