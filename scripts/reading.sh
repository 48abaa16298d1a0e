#!/usr/bin/env bash
# The table of definitions in README: every file of specs/ stands in it once, with the number of its lines.
# And what a reader must believe ends in specs/ and the standard library: no definition there, and no contract, imports from proofs/.
# `reading.sh` says what is wrong; `reading.sh fix` writes the numbers anew.
set -u
cd "$(dirname "$0")/.." || exit 2

rows() { grep -oE '^\| crates/[a-z_]+/specs/[A-Za-z]+\.antt \| [0-9]*' README.md; }

if [ "${1:-}" = fix ]; then
    rows | while IFS='|' read -r _ file _; do
        file=${file// /}
        sed -i -E "s#^\| $file \| [0-9]* #| $file | $(wc -l <"$file") #" README.md
    done
fi

wanted=$(find crates -path 'crates/*/specs/*.antt' ! -path '*/out/*' ! -name Lib.antt | sort)
listed=$(rows | cut -d' ' -f2 | sort)
wrong=$(
    diff <(echo "$wanted") <(echo "$listed") | grep '^[<>]'
    rows | while IFS='|' read -r _ file lines; do
        file=${file// /}
        [ "$(wc -l <"$file")" -eq "${lines:-0}" ] || echo "$file has not $lines lines"
    done 2>&1
    find crates ! -path '*/out/*' \( -path '*/specs/*.antt' -o -path '*/src/*.rt' \) | sort |
        xargs grep -nE '^ *(ghost |unfoldable )?(pub )?use [^ ]*\.proofs(\.|;| |$)' | grep -v 'use Rattle\.std\.proofs\.' |
        sed 's/^/imports from proofs: /'
)
[ -z "$wrong" ] || { echo "$wrong"; exit 1; }
