#!/usr/bin/env bash
# The table 'Functions without an ensures' of docs/DECISIONS.md: it names every such function of src/, and no other.
# `contracts.sh` says what is wrong with it; `contracts.sh list` lists the functions.
set -u
cd "$(dirname "$0")/.." || exit 2

# found: each function with no `ensures` before its body, as 'crate::module function', but for those of a trait whose law, which the
# impl states (`ghost from_gives = ..`), says what they give.
found() {
    find crates -path '*/src/*.rt' ! -path '*/out/*' | while read -r file; do
        module=${file#crates/}
        module=${module%.rt}
        module=${module/\/src\//::}
        module=${module%::lib}
        awk -v module="${module%::main}" '
            function flush() { if (name != "" && !told) print module, name; name = ""; told = 0 }
            { sub(/\/\/.*/, "") }
            /^impl/ { flush(); type = $0; sub(/^impl(<[^>]*>)? /, "", type); sub(/.* for /, "", type); sub(/[ <{].*/, "::", type) }
            /^}/ { type = ""; promised = 0 }
            /^ *ghost [A-Za-z0-9_]+ = / { promised = 1 }
            match($0, /(^|[ \t])fn [A-Za-z0-9_]+/) { flush(); told = promised; name = substr($0, RSTART, RLENGTH); sub(/.*fn /, type, name) }
            /(^|[^A-Za-z0-9_])ensures([^A-Za-z0-9_]|$)/ { told = 1 }
            END { flush() }' "$file"
    done | sort
}

# listed: the same of the table, whose rows have a module and the names of its functions.
listed() {
    sed -n '/^## Functions without an `ensures`/,$p' docs/DECISIONS.md | awk -F'|' '
        $2 ~ /^ [a-z_]+(::[a-z_]+)? $/ && $3 ~ /`/ {
            gsub(/ /, "", $2)
            n = split($3, part, "`")
            for (i = 2; i <= n; i += 2) print $2, part[i]
        }' | sort
}

if [ "${1:-}" = list ]; then
    found
    exit
fi
wrong=$(diff <(found) <(listed) | sed -nE 's/^< (.*)/\1 has no ensures, and DECISIONS does not name it/p; s/^> (.*)/\1 is named in DECISIONS, and has an ensures or is not there/p')
[ -z "$wrong" ] || { echo "$wrong"; exit 1; }
