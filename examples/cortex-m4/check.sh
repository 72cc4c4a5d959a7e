#!/usr/bin/env bash
# Runs the firmware in qemu. Every line that it prints is compared: the colours of each step are those of the proved trace program's trace,
# and each fault ends as the README says. Then wrong versions of main.c are run, and each must be found. The exit status is 0 only if all is
# as expected.
set -u -o pipefail
cd "$(dirname "$0")/../.." || exit 2

here=examples/cortex-m4
inputs=examples/two_phases/inputs_call.txt
trace=examples/two_phases/trace_call.txt
built=$(mktemp -d)
trap 'rm -rf "$built"' EXIT

# The clock of qemu counts instructions, 32 ns each, and sleep is skipped: every run is the same and takes a tenth of a second.
run() { # ELF WORD..
    timeout 20 qemu-system-arm -M mps2-an386 -nographic -monitor none -serial none -icount shift=5,sleep=off \
        -semihosting-config "enable=on,target=native$(printf ',arg=%s' "${@:2}")" -kernel "$1" </dev/null 2>&1
}

# Compares a run with the lines expected, on standard input.
expect() { # WHAT ELF WORD..
    if diff <(run "${@:2}"; echo "exit status $?") <(cat && echo 'exit status 0') >"$built/differences"; then
        echo "as expected: $1"
    else
        echo "FAILED: $1 (<: printed, >: expected)"
        cat "$built/differences"
        return 1
    fi
}

# What the lamps show in the steps FROM to TO of the trace, with the numbers that the firmware gives these steps: MORE is added.
lamps() { # FROM TO [MORE]
    awk -v from="$1" -v to="$2" -v more="${3:-0}" 'NR > 1 && $1 >= from && $1 <= to { print $4, $1 + more }' "$trace"
}
fresh() { echo "fresh after step $1"; }
flashes() { echo "the monitor flashes yellow; toggles of its line since the reset: $1"; }

# The words of the script for the inputs of the trace, and the number of its steps.
words_of() { awk '/^#/ || $1 == "steps" { next } NF == 3 && $2 == "detector" { print "i" $3 "@" $1; next } { exit 1 }' "$inputs"; }
steps=$(awk '$1 == "steps" { print $2 }' "$inputs")
if ! words=$(words_of) || [ -z "$words" ] || [ "$(lamps 1 99999 | wc -l)" != "$steps" ]; then
    echo "FAILED: $inputs has more than steps with one detector, or $trace has other steps"
    exit 1
fi
mapfile -t calls <<<"$words"

# All runs of the site, up to the first that is not as expected.
runs() { # ELF
    whole() { fresh 0 && lamps 1 "$steps"; }
    expect 'the lamps of the trace' "$1" "${calls[@]}" "e@$((steps + 1))" < <(whole) &&
        expect 'a late step is counted, and no step comes too soon after it' "$1" "${calls[@]}" l@41 d@60 e@61 \
            < <(fresh 0; lamps 1 41; echo 'late step; ticks without a step: 4'; lamps 42 59; echo 'step refused with 13'; flashes 59; fresh 40) &&
        expect 'lamps held, newest copy of their step: resumed' "$1" "${calls[@]}" x@41 "e@$((steps + 2))" \
            < <(whole | sed '/ 40$/a resumed after step 40') &&
        expect 'lamps held, older copy: flashing yellow, then fresh' "$1" "${calls[@]}" x@46 e@60 \
            < <(fresh 0; lamps 1 45; echo 'lamps held, but no copy of their step 45'; flashes 0; fresh 40; lamps 1 13 40) &&
        expect 'power lost: fresh' "$1" "${calls[@]}" b@41 e@60 < <(fresh 0; lamps 1 40; fresh 40; lamps 1 18 40) &&
        expect 'power lost while a copy is written, twice: fresh, and the other copy stays' "$1" "${calls[@]}" t@40 t@60 e@62 \
            < <(fresh 0; lamps 1 40; fresh 20; lamps 1 20 20; fresh 20; lamps 1 1 20) &&
        faults "$1"
}

# Each fault in step 41: the line stands still, flashing yellow, then fresh.
faults() { # ELF
    while read -r word fault; do
        expect "$fault" "$1" "${calls[@]}" "$word" e@60 < <(fresh 0; lamps 1 40; echo "${fault#*: }"; flashes 40; fresh 40; lamps 1 18 40) || return
    done <<'END'
d@41 damaged state: step refused with 13
i5@41 stray input: step refused with 15
c@41 unknown colour: lamps not as they should be in step 41
s@41 wrong lamp: lamps not as they should be in step 41
END
}

lines=$(cat $here/*.[ch] $here/link.ld | wc -l)
echo "lines of C and linker script: $lines"
[ "$lines" -lt 300 ] || { echo 'FAILED: the example has 300 lines or more' && exit 1; }

tools/install.sh qemu-system-arm || exit 1
$here/build.sh examples/two_phases/personality.bin "$built/site.elf" || exit 1
export LIBRARY=${LIBRARY:-target/targets/cortex-m4/libwillowera.a}
runs "$built/site.elf" || exit 1

head -c 60 examples/two_phases/personality.bin >"$built/cut.bin"
$here/build.sh "$built/cut.bin" "$built/cut.elf" >/dev/null || exit 1
expect 'a refused personality: the line is never toggled' "$built/cut.elf" e@0 < <(echo 'personality refused with 1'; flashes 0) || exit 1

# Wrong versions of main.c, as edits of sed.
while IFS= read -r edit; do
    sed "$edit" $here/main.c >"$built/main.c"
    if cmp -s $here/main.c "$built/main.c" || ! MAIN=$built/main.c $here/build.sh examples/two_phases/personality.bin "$built/wrong.elf" >/dev/null; then
        echo "FAILED: this edit of main.c changes nothing, or does not compile: $edit"
        exit 1
    elif runs "$built/wrong.elf" >"$built/runs"; then
        echo "FAILED: this wrong version of main.c was not found: $edit"
        exit 1
    fi
    echo "wrong version found: $edit ($(sed -n 's/^FAILED: \(.*\) (<.*/\1/p' "$built/runs"))"
done <<'END'
s/held && shown == step/held/
s/NO_COPY && held && shown == step/NO_COPY/
s/NO_COPY && held && shown/NO_COPY \&\& held \&\& 1 + shown/
s/if (held)/if (0)/
s/next_copy = newest == 0/next_copy = 0/
s/next_copy = !next_copy/next_copy = 0/
s/stay_safe(refused/board_note(refused/
s/if (!board_show(step, colours, groups))/if (board_show(step, colours, groups) > 1)/
s/done = tick;/done = tick;\nfor (; tick != board_ticks; tick++) make_step();/
s/done = board_wait(board_ticks)/done = board_ticks/
s/board_ticks != tick/board_ticks == tick + 9/
END
