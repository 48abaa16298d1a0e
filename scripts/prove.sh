#!/usr/bin/env bash
# prove.sh NAME: has target/staticlib/libNAME.a at hand, or crates/NAME/out/NAME of a program. Where it is there, and no source of the
# crates in it is newer, this ends at once; else what is new of them is proved. All that it says goes to standard error: what is done
# and how long that takes, and a line for each crate.
#
# `rt lib` and `rt run` prove the crates below one after the other. Where more than a few of them are new, `rt all check` proves them
# before, as many at once as there are processors (or RT_JOBS), in a copy that has no other crate: rt takes from one copy of a crate
# what was proved of another. In one folder a second rt waits for the first by itself.
set -eu
cd "$(dirname "$0")/.."
name=${1:?the name of a crate}
made=target/staticlib/lib$name.a
[ ! -f "crates/$name/src/main.rt" ] || made=crates/$name/out/$name

stop() { echo "prove.sh: $*" >&2; exit 1; }

# The crates that one is made of, by the lines 'NAME: DEPENDENCIES' of crates.txt, each below those that it depends on.
made_of() {
    tac crates.txt | awk -F '[: ]+' -v name="$1" '
        BEGIN { wanted[name] }
        $1 in wanted { print $1; for (i = 2; i <= NF; i++) wanted[$i] }' | tac
}

# older FILE CRATE..: whether it is missing, or older than a source of these.
older() {
    local file=$1 crate parts=()
    shift
    for crate in "$@"; do parts+=("crates/$crate"/{src,specs,proofs}); done
    [ ! -f "$file" ] || [ -n "$(find crates.txt "${parts[@]}" -newer "$file" -print -quit 2>/dev/null)" ]
}

# told COMMAND..: runs rt, and shows a line for each crate that it proves; all that it said where it fails.
told() {
    local line crate=''
    "$@" 2>&1 </dev/null | tee "$room/said" | while IFS= read -r line; do
        case $line in
        'rt: chose --jobs '*) crate=${line##* } ;;
        '== '*) crate=${line#== } ;;
        'logic=proved '*) echo "$crate proved" >&2 ;;
        esac
    done
    [ "${PIPESTATUS[0]}" -eq 0 ] || { cat "$room/said" >&2; stop "$name is NOT PROVED, and $made is not made. What rt said stands above."; }
}

mapfile -t crates < <(made_of "$name")
[ "${#crates[@]}" -gt 0 ] || stop "crates.txt has no crate $name"
older "$made" "${crates[@]}" || exit 0
command -v rt >/dev/null || stop "$made is missing or old, and the Rattle toolchain that makes it is not there: no command rt"
began=$(date +%s.%N)
room=$(mktemp -d)
trap 'rm -rf "$room"' EXIT

new=0
for crate in "${crates[@]}"; do ! older "crates/$crate/out/rlib/stamp" "$crate" || new=$((new + 1)); done
if [ "$new" -gt 4 ]; then
    processors=$(nproc 2>/dev/null || echo 1)
    jobs=${RT_JOBS:-$((processors < 4 ? processors : 4))}
    echo "Proving what is new of the ${#crates[@]} crates in $made, $jobs at a time: all of them take minutes, once." >&2
    mkdir "$room/copy"
    for crate in "${crates[@]}"; do
        grep -E "^$crate( |:)" crates.txt >>"$room/copy/crates.txt"
        mkdir -p "$room/copy/crates/$crate"
        for part in src specs proofs; do [ ! -d "crates/$crate/$part" ] || cp -r "crates/$crate/$part" "$room/copy/crates/$crate/"; done
    done
    (cd "$room/copy" && told rt all check --jobs "$jobs")
fi
if [ -f "crates/$name/src/main.rt" ]; then
    # This runs it too, with nothing to read.
    (cd "crates/$name" && told rt run)
else
    (cd "crates/$name" && told rt lib)
    mkdir -p target/staticlib
    cp "crates/$name/out/lib$name.a" "$made"
fi
# A source that was changed meanwhile is newer than what was made.
touch -d "@$began" "$made"
