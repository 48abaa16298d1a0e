#!/usr/bin/env bash
# What the proofs assume, by the reports of `rt check` on each program and static library, which speak of every crate below, and on each
# crate that stands below none of them, which speak of that crate: nothing, but that the four programs, which do I/O, assume the
# contracts of the C functions that the standard library calls for it: write, in two of them read, and for the text of an error errno
# and strerror_r. And no crate uses a library that is not this repository's, the standard library apart. That no crate declares a C
# function of its own is asked by `rt ci`.
set -u
cd "$(dirname "$0")/.." || exit 2

# What a report may assume.
assumed() {
    case $1 in
    gwrprint | replay) echo 'libc::read libc::write os::c::__xpg_strerror_r os::c::rattle_errno' ;;
    turning | trusted) echo 'libc::write os::c::__xpg_strerror_r os::c::rattle_errno' ;;
    esac
}

crates=$(sed -n 's/^\([a-z_]*\)\( staticlib\)\?:.*/\1/p' crates.txt)
[ -n "$crates" ] || { echo "crates.txt lists no crate"; exit 1; }
wrong=0
for name in $(sed -n 's/^[a-z_ ]*: *//p' crates.txt); do
    grep -qx "$name" <<<"$crates" || { echo "crates.txt names $name, which is no crate of this repository"; wrong=1; }
done
whole=$(for crate in $crates; do
    if [ -f "crates/$crate/src/main.rt" ] || grep -q "^$crate staticlib:" crates.txt; then echo "$crate"; fi
done)
# These and the crates below them: crates.txt lists a crate behind those that it depends on, so that it is read from its end.
covered=$(sed -n 's/^\([a-z_]*\)\( staticlib\)\?:/\1/p' crates.txt | tac |
    awk -v whole="$whole" 'BEGIN { split(whole, names); for (i in names) below[names[i]] }
        $1 in below { print $1; for (i = 2; i <= NF; i++) below[$i] }')
for crate in $crates; do
    if ! grep -qx "$crate" <<<"$covered"; then
        verdict=$(cd "crates/$crate" && rt check 2>&1 | grep '^logic=' | tail -n 1)
        if [[ $verdict != 'logic=proved '* || $verdict = *' axioms='* || $verdict = *' foreign='* ]]; then
            echo "$crate assumes something, or is not proved ($verdict)"
            wrong=1
        fi
        continue
    fi
    grep -qx "$crate" <<<"$whole" || continue
    said=$(cd "crates/$crate" && rt check --list-axioms 2>&1)
    verdict=$(grep '^logic=proved ' <<<"$said")
    names=$(sed -n 's/^  \([^ ]*\) *reached$/\1/p' <<<"$said" | paste -sd ' ')
    wanted=$(assumed "$crate")
    count=$(wc -w <<<"$wanted")
    if [[ $verdict != *' target=x86_64-unknown-linux-gnu '* ]]; then
        echo "$crate: rt check gives no verdict on it"
        wrong=1
    elif [ "$names" != "$wanted" ] || [ "$(grep -oE ' axioms=[0-9]+' <<<"$verdict")" != "${wanted:+ axioms=$count}" ] || [[ $verdict = *' foreign='* ]]; then
        echo "$crate assumes '$names', where '$wanted' was expected ($verdict)"
        wrong=1
    fi
done
exit "$wrong"
