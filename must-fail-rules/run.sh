#!/usr/bin/env bash
# Applies each edit of this folder to a copy of the crates and checks the crate that must refuse it. With names: only those.
# Prints a line for each edit. Exit status: 0 only if every one was refused as it must be; 2 if there is no edit of a name.
#
# The edits are tried side by side, one on each processor (or as many as RT_JOBS says), over what the crates without an edit leave.
set -u
here=$(cd "$(dirname "$0")" && pwd)
root=$(dirname "$here")

# The text of a line `KEY: TEXT` of an edit.
value_of() { sed -n "s/^$1: //p" "$2"; }

# These crates and all that they use, by crates.txt.
needed() { # CRATE..
    awk -F: -v wanted="$*" '
        { sub(/#.*/, "") }
        NF { split($1, head, " "); uses[head[1]] = $2 }
        END {
            last = split(wanted, list, " ")
            for (i = 1; i <= last; i++) {
                if (list[i] in seen) continue
                seen[list[i]]
                print list[i]
                n = split(uses[list[i]], below, " ")
                for (j = 1; j <= n; j++) if (below[j] in uses) list[++last] = below[j]
            }
        }' "$root/crates.txt"
}

# The lines of crates.txt for a copy that has only these crates.
listed() { grep -E "^($(paste -sd '|'))( [a-z]+)?:" "$root/crates.txt"; }

# A copy of these crates, with what a check kept.
copy_crates() { # ROOM CRATE..
    room=$1
    shift
    mkdir -p "$room/crates"
    printf '%s\n' "$@" | listed >"$room/crates.txt"
    for crate; do
        mkdir -p "$room/crates/$crate/out"
        for part in src specs proofs; do cp -R "$root/crates/$crate/$part" "$room/crates/$crate/" 2>/dev/null; done
        if [ -d "$root/crates/$crate/out/incremental" ]; then cp -R "$root/crates/$crate/out/incremental" "$room/crates/$crate/out/"; fi
    done
}

# Takes the proofs of the worked cases out of the rules. Nothing cites those proofs.
without_cases() { # RULES-FOLDER
    rm -f "$1"/proofs/*Cases.antt
    sed -i '/^pub mod [A-Za-z]*Cases$/d' "$1/proofs/Lib.antt"
}

# Leaves in a crate's proofs one module and those that it uses. Nothing else of the crate is then checked.
keep_module() { # CRATE-FOLDER MODULE
    proofs=$1/proofs
    kept=" $2 " next=$2
    while [ -n "$next" ]; do
        used=$(for module in $next; do grep -oE "Rattle\.$(basename "$1")\.proofs\.[A-Za-z]+" "$proofs/$module.antt"; done | sed 's/.*\.//' | sort -u)
        next=
        for module in $used; do
            case $kept in *" $module "*) ;; *) kept="$kept$module " next="$next $module" ;; esac
        done
    done
    for file in "$proofs"/*.antt; do
        module=$(basename "$file" .antt)
        case " Lib$kept" in *" $module "*) ;; *) rm "$file" && sed -i "/^pub mod $module\$/d" "$proofs/Lib.antt" ;; esac
    done
}

# Puts the new text in the place of the old, which must stand in the file once.
replace_once() { # FILE OLD NEW
    OLD=$2 NEW=$3 awk '
        { text = text $0 "\n" }
        END {
            old = ENVIRON["OLD"]; at = index(text, old)
            if (!at || index(substr(text, at + length(old)), old)) exit 1
            printf "%s%s%s", substr(text, 1, at - 1), ENVIRON["NEW"], substr(text, at + length(old))
        }' "$1" >"$1.edited" && mv "$1.edited" "$1"
}

# What an error says that speaks only of a proof's shape or of a name, and not of a fact.
shape='has no field|no occurrence|has no `|is not in scope|is no name|operand is missing|expected the end|cannot continue'

try_edit() { # EDIT ROOM
    name=$(basename "$1" .edit) by=$(value_of 'refused by' "$1") room=$2
    crate=${by%%/*}
    rm -rf "$room" && mkdir -p "$room/crates"
    needed "$crate" | listed >"$room/crates.txt"
    # A check replaces files and changes none, so the copy may share them.
    for one in $(needed "$crate"); do cp -Rl "$base/crates/$one" "$room/crates/"; done
    without_cases "$room/crates/rules"
    case $by in */*) keep_module "$room/crates/$crate" "${by#*/}" ;; esac
    if ! replace_once "$room/crates/rules/$(value_of file "$1")" "$(value_of old "$1")" "$(value_of new "$1")"; then
        echo "$name: BAD EDIT: its old text does not stand once in the file"
        return 1
    fi
    (cd "$room/crates/$crate" && rt check --jobs 1) >"$room/log" 2>&1
    status=$?
    # the first error that is not only about what rests on another one
    first=$(grep ': error' "$room/log" | grep -v -m 1 -e 'was rejected' -e 'was not admitted' | sed 's|^\./||' | cut -c1-160)
    below=$(sed -n 's/^rt: the library \([a-z0-9_]*\) did not build.*/\1/p' "$room/log" | head -n 1)
    if [ -n "$below" ]; then
        echo "$name: BAD EDIT: $below, below $crate, is not proved with it: $first"
    elif [ "$status" -eq 0 ]; then
        echo "$name: NOT REFUSED by $by"
    elif [ "$status" -ne 1 ] || ! grep -q '^logic=not-proved' "$room/log"; then
        echo "$name: NOT TRIED: the check of $crate gave no verdict (exit $status): $(tail -n 1 "$room/log" | cut -c1-160)"
    elif [ -z "$first" ] || grep -qE "$shape" <<<"$first"; then
        echo "$name: BAD EDIT: it only breaks the proof's shape: $first"
    else
        echo "$name: refused by $by, as it must be: $first"
        return 0
    fi
    return 1
}

if [ $# -eq 0 ]; then
    for edit in "$here"/*.edit; do set -- "$@" "$(basename "$edit" .edit)"; done
fi
refusing=
for name; do
    if [ ! -f "$here/$name.edit" ]; then
        echo "must-fail-rules has no edit '$name'" >&2
        exit 2
    fi
    by=$(value_of 'refused by' "$here/$name.edit")
    refusing="$refusing ${by%%/*}"
done

# As many side by side as there are processors, each with 3 GB of memory.
lanes=${RT_JOBS:-$(awk -v cores="$(nproc)" '$1 == "MemAvailable:" { n = int($2 / 3000000); print n < 1 ? 1 : n < cores ? n : cores }' /proc/meminfo)}

# What each edit is tried on: all crates that it needs are proved here without an edit.
rooms=$(mktemp -d)
trap 'rm -rf "$rooms"' EXIT
base=$rooms/base
# shellcheck disable=SC2046,SC2086 # several crates
copy_crates "$base" $(needed $refusing)
if ! (cd "$base" && rt all check --jobs "$lanes") >"$rooms/log" 2>&1; then
    cat "$rooms/log"
    exit 1
fi

names=("$@") trying=()
for ((lane = 0; lane < lanes && lane < ${#names[@]}; lane++)); do
    (
        worst=0
        for ((at = lane; at < ${#names[@]}; at += lanes)); do try_edit "$here/${names[at]}.edit" "$rooms/$lane" || worst=1; done
        exit "$worst"
    ) &
    trying+=($!)
done
failed=0
for lane in "${trying[@]}"; do wait "$lane" || failed=1; done
exit "$failed"
