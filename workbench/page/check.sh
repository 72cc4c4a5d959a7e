#!/usr/bin/env bash
# Builds the page and tests it in chromium without a window: workbench/page/check.sh [--pictures] [TEST ..]
# --pictures also makes a screenshot of each tab: target/page/*.png. Installs chromium, its fonts and node if they are missing (as root).
set -eu
cd "$(dirname "$0")"
../../tools/install.sh browser node
./build.sh
if [ "${1:-}" = --pictures ]; then
    shift
    node test/pictures.js
fi
node test/check.js --faults "$@"
