#!/usr/bin/env bash
# Prints the mean number of instructions of calls for each personality named: a step alone and in a cabinet, and placing and taking out in a
# cabinet without other sites. It makes 2,000 calls of each (examples/c/instructions.c; placing and taking out once more) and counts with
# valgrind's callgrind, inside the call only. The library is target/staticlib/libwillowera.a.
#
#     examples/c/instructions.sh examples/two_phases/personality.bin examples/largest/personality.bin
set -eu
cd "$(dirname "$0")/../.."
tools/install.sh valgrind || exit 2
steps=2000
built=$(mktemp -d)
trap 'rm -rf "$built"' EXIT
cc -std=c11 -O2 -Iinclude examples/c/instructions.c target/staticlib/libwillowera.a -o "$built/instructions"
mean() { # FUNCTION CALLS PERSONALITY
    counted=$(valgrind --tool=callgrind --toggle-collect="$1" --callgrind-out-file=/dev/null "$built/instructions" "$3" $steps 2>&1 |
        sed -n 's/.*Collected : \([0-9]*\).*/\1/p')
    echo $((counted / $2))
}
for personality in "$@"; do
    echo "$personality: a step $(mean willowera_step $steps "$personality")," \
        "in a cabinet $(mean willowera_cabinet_step $steps "$personality")," \
        "placing $(mean willowera_cabinet_place $((steps + 1)) "$personality")," \
        "taking out $(mean willowera_cabinet_take_out $((steps + 1)) "$personality")"
done
