#!/usr/bin/env bash
# Checks the static library from C, one part at a time:
#
#     check.sh needs         it needs nothing but memcpy and memset, and has no data that could be written
#     check.sh headers       the headers compile without warnings as C99, C11 and C++11, with 64 and 32 bits; headers.c has what they promise;
#                            a record of another layout does not compile
#     check.sh conditions    what include/willowera.h says of buffers and threads, tried by conditions.c
#     check.sh steps         steps.c prints the colours of the trace of the junction of two phases, and refuses wrong words
#     check.sh rust          rust/willowera/examples/steps.rs prints the same colours, and refuses a wrong word and an archive of another version
#     check.sh why           steps.c prints why the phases of two sites hold, as it is kept in why.txt
#     check.sh words         words.c: the refusals in words are those kept in words.txt, and fit every personality of the reader's vectors
#     check.sh power         power.c prints what is kept in power.txt
#     check.sh arm           conditions.c, steps.c and words.c do the same with the archive for 32-bit ARM Linux, under qemu
#     check.sh settings      settings.c prints the answers that the data sheet's table of site sheets has
#     check.sh road          road.c prints what the tables of the example roads have, but for the longest queue
#     check.sh cabinet       cabinet.c prints what is kept in cabinet.txt, and every site in the cabinet does what it does alone
#     check.sh retime        retime.c prints what is kept in retime.txt
#     check.sh yellow        yellow.c prints the answers that the data sheet's table of yellow times has
#
# The programs are built with gcc's address and undefined-behaviour sanitizers, which watch the caller's side.
set -u -o pipefail
cd "$(dirname "$0")/../.." || exit 2

library=target/staticlib/libwillowera.a
[ -e "$library" ] || { echo "examples/c/check.sh: there is no $library: tools/library.sh makes it" >&2 && exit 2; }
built=$(mktemp -d)
trap 'rm -rf "$built"' EXIT

# Builds a program and runs it. The library takes nothing from the heap, so that leaks are not looked for.
build() { # NAME HEADERS FLAGS..
    cc -std=c11 -Wall -Wextra -Wconversion -g -O1 -fsanitize=address,undefined -fno-sanitize-recover=all -pthread "-I$2" "${@:3}" \
        "examples/c/$1.c" "$library" -o "$built/$1"
}
built() { ASAN_OPTIONS=detect_leaks=0 "$built/$1" "${@:2}"; }
run() { build "$1" include && built "$@"; } # NAME WORDS..

undefined_names() { nm -u "$library" | awk '$1 == "U" { print $2 }' | sort | xargs; }
writable_sections() { readelf -SW "$library" | sed 's/^ *\[ *[0-9]*\]//' | awk '$7 ~ /W/ { print $1 }'; }
sheets() { awk -F ' *[|] *' "/^## / { here = /from a site sheet/ } here && \$2 ~ /^[0-9]+\$/ { print $1 }" docs/DATA-SHEET.md; }
yellows() { awk -F ' *[|] *' "/^## / { here = /^## Yellow times/ } here && \$2 ~ /^[0-9]+\$/ { print $1 }" docs/DATA-SHEET.md; }

# What both programs that step a site print for the junction of two phases with one call of phase B.
called() { echo 'wait bound 270 steps' && awk 'NR > 1 && $4 != last { print $1, $4; last = $4 }' examples/two_phases/trace_call.txt; }
rust_steps() { (cd rust && cargo run --quiet --offline -p willowera --features linked --example steps -- ../examples/two_phases/personality.bin 80 "$@"); }

# Builds a program for 32-bit ARM Linux, without sanitizers, and runs it.
run_arm() { # NAME WORDS..
    arm-linux-gnueabihf-gcc -std=c11 -Wall -Wextra -Wconversion -O1 -static -pthread -Iinclude "examples/c/$1.c" \
        target/targets/armv7-linux/libwillowera.a -o "$built/arm_$1" && qemu-arm "$built/arm_$1" "${@:2}"
}

# Compiles headers.c, and warns of nothing. Freestanding, so that 32 bits need no second C library.
compiles() { # COMPILER FLAGS..
    "$@" -ffreestanding -fsyntax-only -Wall -Wextra -Wpedantic -Wconversion -Wshadow -Werror -Iinclude examples/c/headers.c
}

# steps.c must end with this exit status and say this.
says() { # STATUS TEXT WORDS..
    said=$(built steps "${@:3}" 2>&1)
    status=$?
    if [ "$status" -ne "$1" ] || ! grep -qF "$2" <<<"$said"; then echo "steps ${*:3}: exit status $status, $said" && return 1; fi
}
wrong_word() { says 2 "'$1'" "${@:2}"; } # WRONG WORDS..
refused() { says 1 "$@"; }               # TEXT WORDS..

# Copies the headers and makes one of them wrong, to show that a test notices it.
wrong_copy() { # HEADER CHANGE-AS-SED
    mkdir -p "$built/wrong" && cp include/*.h "$built/wrong" && sed -i "$2" "$built/wrong/$1"
    if cmp -s "include/$1" "$built/wrong/$1"; then echo "$1: not changed by $2" && return 1; fi
}
# With this change the compiler refuses the header, and names each of these.
not_compiled() { # CHANGE-AS-SED NAMES COMPILER FLAGS..
    wrong_copy willowera.h "$1" || return 1
    if "${@:3}" -ffreestanding -fsyntax-only -Werror "-I$built/wrong" examples/c/headers.c 2>"$built/said"; then
        echo "headers: ${*:3} compiles them with $1" && return 1
    fi
    for name in $2; do grep -q "$name" "$built/said" || { echo "headers: ${*:3} does not name $name with $1" && return 1; }; done
}
noticed() { # CHANGE-AS-SED
    wrong_copy willowera_words.h "$1" && build words "$built/wrong" -O0 || return 1
    if built words reads "$reads" >"$built/said" 2>&1; then echo "words: not noticed: $1" && return 1; fi
}

case "${1:-}" in
needs)
    echo "needs: $(undefined_names); sections that can be written: $(writable_sections | wc -w)"
    [ -z "$(undefined_names | tr ' ' '\n' | grep -vxE 'memcpy|memset')" ] && [ -z "$(writable_sections)" ]
    ;;
headers)
    tools/install.sh g++ || exit 1
    for bits in -m64 -m32; do
        compiles cc "$bits" -std=c99 && compiles cc "$bits" -std=c11 && compiles g++ "$bits" -std=c++11 -x c++ || exit 1
    done
    build headers include -O0 && built headers || exit 1
    # With lengths or a number of records as size_t the promise fails with 32 bits; with a field elsewhere the program fails.
    not_compiled 's/uint64_t state_length/size_t state_length/' willowera_step cc -m32 &&
        not_compiled 's/uint64_t records/size_t records/' willowera_cabinet_step cc -m32 || exit 1
    wrong_copy willowera.h '/WILLOWERA_STATE_LOCKED 12/s/12/13/' && build headers "$built/wrong" -O0 || exit 1
    if built headers; then exit 1; fi
    # A record with a byte more, with another alignment, with two parts exchanged, or with its parts elsewhere.
    for words in 'cc -std=c99' 'cc -std=c11' 'g++ -std=c++11 -x c++'; do
        # shellcheck disable=SC2086 # several words
        not_compiled 's/PERSONALITY_BYTES 477/PERSONALITY_BYTES 478/' have_817_bytes $words &&
            not_compiled 's/uint8_t length\[2\]/uint16_t length/' have_alignment_1 $words &&
            not_compiled 's/uint8_t held;/uint8_t other;/; s/uint8_t first;/uint8_t held;/; s/uint8_t other;/uint8_t first;/' 'have_held_at_0 have_first_at_1' $words &&
            not_compiled 's/uint8_t first;/uint8_t first[2];/' 'have_length_at_2 have_personality_at_4 have_state_at_481' $words || exit 1
    done
    ;;
conditions)
    run conditions examples/*/personality*.bin
    ;;
steps)
    site=examples/two_phases/personality.bin
    run steps "$site" 80 12-12:1 | cmp - <(called) || exit 1
    for wrong in x 12 12-12 12-12: 12-12:1x 12-12:+1 -1-3:1 0-3:1 5-3:1 12-12:56 1-1000000000:1 ''; do
        wrong_word "$wrong" "$site" 80 12-12:1 "$wrong" || exit 1
    done
    for wrong in x '' -3 5x 8.5 1000000000; do wrong_word "$wrong" "$site" "$wrong" || exit 1; done
    says 2 'a number of steps' "$site" && says 0 'FROM-TO:BIT' --help && says 0 'wait bound 270 steps' "$site" 0 || exit 1
    # A stray input, a cut personality, one that is longer than the program's room for it, and a folder.
    head -c 66 "$site" >"$built/cut" && head -c 5000 /dev/zero >"$built/long"
    refused 'refused 15 0: an input bit' "$site" 9 2-2:5 && refused 'refused 1 64: the personality has only 66 bytes' "$built/cut" 9 &&
        refused 'more than 4096 bytes' "$built/long" 9 && refused 'Is a directory' "$built" 9
    ;;
rust)
    rust_steps 12-12:1 | cmp - <(called) || exit 1
    if rust_steps 12-12 >"$built/said" 2>&1; then exit 1; fi
    grep -qF "'12-12' is not FROM-TO:BIT" "$built/said" || exit 1
    objcopy --redefine-sym willowera_version=its_version "$library" "$built/libwillowera.a" &&
        echo 'unsigned willowera_version(void) { return 4; }' | cc -x c -c - -o "$built/other.o" && ar r "$built/libwillowera.a" "$built/other.o" || exit 1
    if WILLOWERA_LIB_DIR=$built CARGO_TARGET_DIR=$built/cargo rust_steps 12-12:1 >"$built/said" 2>&1; then exit 1; fi
    grep -q 'has version 4 of the interface' "$built/said"
    ;;
words)
    reads=crates/run_reads/data/reads
    run words kept examples/c/words.txt | diff - examples/c/words.txt || exit 1
    built words reads "$reads" && built words fuzz "$reads" 1 1000000 || exit 1
    # The test notices a limit that is too low or too high, a byte read past the end, and a byte written past the room.
    noticed 's/"yellow (Y)", 30/"yellow (Y)", 29/' && noticed 's/"yellow (Y)", 30/"yellow (Y)", 31/' &&
        noticed 's/at < job->length/at <= job->length/' && noticed 's/job->wanted + 1 < job->room/job->wanted <= job->room/'
    ;;
why)
    { run steps --why examples/two_phases/personality.bin 110 12-12:1 1-110:0 && built steps --why examples/crossings/personality.bin 700 60-60:48 61-61:50; } |
        diff - examples/c/why.txt
    ;;
power)
    run power examples/two_phases/personality.bin examples/t_junction/personality.bin | diff - examples/c/power.txt
    ;;
arm)
    tools/install.sh arm-linux-gnueabihf-gcc qemu-arm && targets/build.sh armv7-linux || exit 1
    run_arm conditions examples/two_phases/personality.bin examples/largest/personality.bin &&
        run_arm steps examples/two_phases/personality.bin 80 12-12:1 | cmp - <(called) &&
        run_arm words kept examples/c/words.txt | diff - examples/c/words.txt && run_arm words fuzz crates/run_reads/data/reads 1 100000
    ;;
settings)
    # shellcheck disable=SC2046 # three words of each row
    run settings $(sheets '$2, $3, $4') | diff - <(sheets '$5')
    ;;
road)
    for road in examples/*/road*.bin; do
        table=$(dirname "$road")/$(basename "$road" .bin | sed 's/^road/table/').txt
        run road "$road" | cmp - <(tail -n +2 "$table" | cut -d ' ' -f 1-6) || exit 1
    done
    ;;
cabinet)
    run cabinet examples/two_phases/personality.bin examples/t_junction/personality.bin examples/crossings/personality.bin |
        diff - examples/c/cabinet.txt
    ;;
retime)
    run retime examples/two_phases/personality.bin examples/two_phases/personality_night.bin examples/t_junction/personality.bin |
        diff - examples/c/retime.txt
    ;;
yellow)
    # shellcheck disable=SC2046 # two words of each row
    run yellow $(yellows '$2, $3') | diff - <(yellows '$4')
    ;;
*)
    sed -n '2,/^[^#]/s/^# \{0,1\}//p' "$0"
    exit 2
    ;;
esac
