#!/usr/bin/env bash
# One public name means one thing: lists each that specs/ and src/ define more than once, with the files, and fails if there is any.
# Counted are definitions, records and data types of specs/, those in a `module _ ..` too, and the types that src/ declares; fields of a
# record, variants and what is not `pub` (as the examples of a file are) are not.
set -u
cd "$(dirname "$0")/.." || exit 2

defined() {
    awk '
        FNR == 1 { base = 0 }
        /^module / { base = 2; next }
        /^[^ ]/ { base = 0 }
        { match($0, /^ */) }
        RLENGTH != base { next }
        { sub(/^ */, "") }
        !/^((abbrev|unfoldable) )?pub / || /^pub mod / || /^(unfoldable )?pub use / { next }
        { sub(/^((abbrev|unfoldable) )?pub ((record|data) )?/, ""); print $1, FILENAME }' crates/*/specs/*.antt
    awk '/^pub (struct|enum|type) / { sub(/[^A-Za-z0-9_].*/, "", $3); print $3, FILENAME }' crates/*/src/*.rt
}

twice=$(defined | awk '
    { files[$1] = files[$1] " " $2; n[$1]++ }
    END { for (name in n) if (n[name] > 1) print name ":" files[name] }' | sort)
[ -z "$twice" ] || { echo "$twice"; exit 1; }
