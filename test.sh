#!/usr/bin/env bash
# Passes everything: the names and promises in the documents; `rt ci`: layout, every crate proved, every must-fail edit refused and every
# program run; the edits of the rules that a theorem must refuse; the example sites, their traces and the ways a trace ends; the entries of the
# table of yellow times; the vectors; the tests of rust/ and the library against the model; cabinets; retimings; sealed states; waits; the
# library from C and for other processors; the workbench; the checks themselves on empty input, which must fail.
#
#     ./test.sh                     everything
#     ./test.sh --after-proofs      no edit is tried, and what an earlier check kept is not proved again (rt all check). This is not the verdict
#
# It says first which Debian packages it will install (as root; tools/install.sh). The checks that failed are named at the end. The last line
# is `N passed, M failed`; the exit status is 0 only if M is 0.
set -u
cd "$(dirname "$0")" || exit 2

proves=yes
case "$*" in
'') ;;
--after-proofs) proves='' ;;
*)
    sed -n '7,8s/^# \{0,1\}//p' "$0" >&2
    exit 2
    ;;
esac

parts='g++ node qemu-system-arm qemu-arm arm-none-eabi-gcc arm-linux-gnueabihf-gcc aarch64-linux-gnu-gcc riscv64-unknown-elf-gcc crates wasm browser sumo'
# shellcheck disable=SC2086 # several parts
missing=$(tools/install.sh --missing $parts)
echo "Debian packages to install: ${missing:-none}"

passed=0
failed=0
failures=()
fails() { # WHAT
    failed=$((failed + 1))
    failures+=("$1")
    echo "FAILED: $1"
}

# Runs one check and counts it.
check() { # WHAT COMMAND..
    what=$1
    shift
    if "$@"; then passed=$((passed + 1)); else fails "$what"; fi
}

check 'names in the documents' python3 docs/check_names.py
check 'promises in the README' python3 docs/promises.py
check 'docs/TRUSTED.md' python3 docs/trusted.py --check
check 'outcomes that a contract leaves open' python3 docs/open_outcomes.py --check

log=$(mktemp)
room=$(mktemp -d)
trap 'rm -rf "$log" "$room"' EXIT

# Long checks run beside others, which leave a processor idle: `beside` keeps what a check prints, and `passed_beside` prints and judges it.
beside() { # NAME COMMAND..
    name=$1
    shift
    "$@" >"$room/$name.out" 2>&1 && touch "$room/$name.passed"
}
passed_beside() { cat "$room/$1.out" && [ -e "$room/$1.passed" ]; }

# What later checks need is installed meanwhile. A check installs what it needs itself, too.
# shellcheck disable=SC2086 # several parts
beside install tools/install.sh $parts &
installing=$!

# rt ci counts crates, edits and programs itself: its last line has the counts, and a line above it the names of what failed. An edit that it
# cannot apply or read fails nothing there: a line `rt: ok` says how many such there are, and each is a failure here.
mkdir -p target/log
said=target/log/proofs
prove() {
    rt ci 2>&1 | tee "$said"
    status=${PIPESTATUS[0]}
    good=$(sed -n '$s/^\([0-9][0-9]*\) passed, [0-9][0-9]* failed$/\1/p' "$said")
    bad=$(sed -n 's/^rt: FAILED: //p' "$said" | sed -E 's/ \((run|tests)\)/(\1)/g')
    passed=$((passed + ${good:-0}))
    for name in $bad; do fails "rt: $name"; done
    if [ "${good:-0}" -eq 0 ]; then fails 'rt ci: it gives no count, or 0'; fi
    if grep -E '^rt: (ok;.*, [1-9][0-9]* bad|note: bad must-fail edits)' "$said"; then fails 'rt ci: must-fail edits that cannot be applied or read'; fi
    if [ "$status" -ne 0 ] && [ -z "$bad" ]; then fails "rt: exit status $status"; fi
    if [ "$status" -eq 0 ] && ! grep -q '^rt: ok;.* must-fail edits: [1-9]' "$said"; then fails 'rt ci: it does not say that all is well, or no edit was refused'; fi
}

# The same without edits and over what an earlier check kept. The programs are built by running them, whatever they say of no input.
program() { echo "crates/$1/out/$1"; }
build_program() { # NAME
    rm -f "$(program "$1")"
    (cd "crates/$1" && rt run) </dev/null >"$log" 2>&1
    [ -x "$(program "$1")" ] || { cat "$log" && return 1; }
}
prove_again() {
    rt all check 2>&1 | tee "$said"
    [ "${PIPESTATUS[0]}" -eq 0 ] || return
    for name in run_trace run_road run_yellow run_cabinet; do build_program "$name" || return; done
}
if [ -n "$proves" ]; then prove; else check 'rt all check, and the programs' prove_again; fi

# The edits of the rules that a theorem must refuse are tried beside the checks below, on half of the processors. The script prints a line for
# each; its other lines say why it gave up.
try_edits() { RT_JOBS=$((($(nproc) + 1) / 2)) must-fail-rules/run.sh >"$room/edits.out" 2>&1; }
refused() { grep "^$1: refused by " "$room/edits.out" || { grep -v ': refused by ' "$room/edits.out" && false; }; }
if [ -n "$proves" ]; then try_edits & edits=$!; fi

# The proved trace program and the independent model's, both run here, print for each example the trace that is kept with it, and the
# same in every way a trace can end.
proved=$(program run_trace)
model=./rust/target/release/trace
build_model() { (cd rust && cargo build --quiet --release --offline -p trace); }
same_trace() (
    set -o pipefail
    "$proved" <"$1" | cmp - "$2" && "$model" <"$1" | cmp - "$2"
)
check "the model's trace program" build_model

check 'examples: bytes as their texts say' python3 examples/build.py --check
check 'examples: bytes in proved statements' python3 examples/proved_bytes.py --self-test
for input in examples/*/stdin*.bin; do
    trace=$(dirname "$input")/$(basename "$input" .bin | sed 's/^stdin/trace/').txt
    check "$trace" same_trace "$input" "$trace"
done
same_table() { "$(program run_road)" <"$1" | cmp - "$2"; }
for input in examples/*/road*.bin; do
    table=$(dirname "$input")/$(basename "$input" .bin | sed 's/^road/table/').txt
    check "$table" same_table "$input" "$table"
done
check 'endings of a trace' python3 examples/endings.py "$proved" "$model"

# The entries of the table of yellow times in the source, one on a line, are those that the generator computes.
yellow_lines() {
    sed -n '/^const YELLOW/,/^];/{//!p}' crates/sheet_yellow/src/lib.rt |
        awk '/\/\// { print; next } { n = split($0, entry, /[, ]+/); for (i = 1; i <= n; i++) if (entry[i] != "") print "    " entry[i] "," }'
}
same_yellow() (
    set -o pipefail
    "$(program run_yellow)" | cmp - <(yellow_lines)
)
check 'table of yellow times as generated' same_yellow

# The vectors of the reader are those that the script makes.
same_reads() { python3 vectors/make_reads.py "$log" && [ -s "$log" ] && cmp "$log" crates/run_reads/data/reads; }
check 'vectors/make_reads.py' same_reads

# The static library. Its module for other processors is caught while it is made.
check 'the static library (tools/library.sh), and its module' python3 targets/module.py
check 'verdicts as docs/TRUSTED.md explains them' python3 docs/trusted.py --verdicts
wait "$installing"
check 'packages (tools/install.sh)' passed_beside install

# Two rows of checks beside each other: the library from C, on other processors and in the workbench; and the library against the models.
#
# From C: what it needs, the conditions that its header states, and the example programs. On other processors: refusals of the build, archives,
# header, stack and figures; a firmware; calls recorded on the host give the same answers and bytes, and damaged recordings are noticed. In the
# workbench: site texts, the command, pictures, the page in a browser, the tutorial, and SUMO beside the library.
in_c='needs headers conditions steps rust why words power arm settings road cabinet retime yellow'
for_targets='refusals archives header stack figures'
in_workbench='site command pictures wasm'
built_for_use() {
    for part in $for_targets; do beside "targets-$part" targets/check.sh "$part"; done
    beside firmware examples/cortex-m4/check.sh
    beside replay targets/replay/run.sh cortex-m4 cortex-m4-strict armv7-linux wasm32
    beside damaged targets/replay/run.sh --damaged cortex-m4-strict wasm32
    for part in $in_c; do beside "c-$part" examples/c/check.sh "$part"; done
    for part in $in_workbench; do beside "workbench-$part" workbench/check.sh "$part"; done
    beside page workbench/page/check.sh
    beside tutorial workbench/tutorial/check.sh
    beside sumo workbench/sumo/check.sh
}
built_for_use &
use=$!

# The Rust side's own tests; the static library against the independent model, and demand 3 and the waits watched from outside: seeds and
# counts are printed.
rust_tests() { (cd rust && cargo test --quiet --offline --features linked); }
compare_with_model() { (cd rust && cargo run --quiet --release --offline --features linked -p compare -- "$@"); }
build_compare() { (cd rust && cargo build --quiet --release --offline --features linked -p compare); }
check 'the comparison' build_compare
check 'library and model agree' compare_with_model 1 50000
check 'demand 3 watched' compare_with_model 1 watch 4000000
check 'tests of rust/' rust_tests

# Vectors of a model in Python, for the library and for the model in rust/: simulated roads, cabinets, lists of calls with new times among
# them, sealed states, waits.
same_vectors() { python3 "vectors/make_$1.py" "$log" && compare_with_model "$1" "$log"; }
for what in roads cabinets retimes seals waits; do
    check "vectors/make_$what.py" same_vectors "$what"
done

# The longest waits of the example sites: driven by a program, replayed by both trace programs.
build_longest() { (cd rust && cargo build --quiet --release --offline -p longest); }
check 'the longest waits' build_longest
check 'longest waits driven and replayed' python3 examples/longest.py ./rust/target/release/longest "$proved" "$model"

# The lists of calls for the proved program over a slice of records and for the model's.
check 'lists of cabinet calls' python3 vectors/cabinet_lists.py "$(program run_cabinet)" ./rust/target/release/cabinet

# Lines for the panel: the vectors are those that the model in Python makes, and the library and the model in rust/ tell the same lines.
same_whys() { python3 vectors/make_why.py "$log" && [ -s "$log" ] && cmp "$log" vectors/whys; }
check 'vectors/make_why.py' same_whys
check 'lines of vectors/make_why.py' compare_with_model whys ../vectors/whys

# The settings of site sheets against exact arithmetic.
compare_sheets() { (cd rust && cargo run --quiet --release --offline --features linked -p sheet -- "$@"); }
check 'settings of site sheets agree' compare_sheets 1 1000000

# Yellow times: the library against whole numbers, and the source's table against exact fractions.
compare_yellow() { (cd rust && cargo run --quiet --release --offline --features linked -p yellow -- compare); }
check 'yellow times agree' compare_yellow
exact_yellow() { yellow_lines | grep -v '//' >"$log" && python3 vectors/yellow.py "$log"; }
check 'table of yellow times by vectors/yellow.py' exact_yellow

# A check that looked at nothing fails.
check 'checks that looked at nothing (tools/empty.py)' tools/empty.py

wait "$use"
for part in $for_targets; do check "targets/check.sh $part" passed_beside "targets-$part"; done
check 'examples/cortex-m4/check.sh' passed_beside firmware
check 'replay on other processors' passed_beside replay
check 'damaged recordings are noticed' passed_beside damaged
for part in $in_c; do check "examples/c/check.sh $part" passed_beside "c-$part"; done
for part in $in_workbench; do check "workbench/check.sh $part" passed_beside "workbench-$part"; done
check 'the page in a browser' passed_beside page
check 'the tutorial' passed_beside tutorial
check 'SUMO beside the library' passed_beside sumo

if [ -n "$proves" ]; then
    wait "$edits"
    for edit in must-fail-rules/*.edit; do
        check "$edit" refused "$(basename "$edit" .edit)"
    done
fi

if [ "${#failures[@]}" -gt 0 ]; then printf 'failed: %s\n' "${failures[@]}"; fi
echo "$passed passed, $failed failed"
[ "$failed" -eq 0 ]
