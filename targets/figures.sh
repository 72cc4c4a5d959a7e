#!/bin/sh
# Prints the tables of docs/DATA-SHEET.md about other processors (targets/figures.py), and builds what is missing.
#
#     targets/figures.sh             all tables
#     targets/figures.sh fixed       only those that the kit alone determines: code sizes, bounds of the stack. They are kept in
#                                    targets/figures.txt, and targets/check.sh figures compares them
#     targets/figures.sh levels      the levels of optimisation, compared on Cortex-M4
exec python3 "$(dirname "$0")/figures.py" "$@"
