#!/usr/bin/env bash
# The tables of theorems in README: every file that they name is there and has the theorems named behind it, and no row goes without
# one. So a theorem cannot be deleted or renamed unnoticed.
set -u
cd "$(dirname "$0")/.." || exit 2

# What every reader is promised: these names must stand in the tables.
promised='demand_one demand_two demand_three eleven four_played near_played'

# The last cells of the tables' rows, one to a line.
cells() {
    sed -n '/^## What is promised/,/^## From Rust and C/p' README.md | grep -E '^\|.*proofs/[A-Za-z]+\.antt' | sed 's/ *| *$//; s/.*| *//'
}

# Lines 'FILE THEOREM', or 'FILE' alone for a file with none behind it. A file without a folder lies beside the one before it.
named() {
    cells | while IFS= read -r cell; do
        file='' folder='' bare=0
        while IFS= read -r word; do
            case $word in
            '`'*) echo "$file ${word//\`/}" && bare=0 ;;
            *)
                [ "$bare" -eq 0 ] || echo "$file"
                case $word in */*) folder=${word%/*} ;; *) word=$folder/$word ;; esac
                file=$word bare=1
                ;;
            esac
        done < <(grep -oE '[A-Za-z_/]+\.antt|`[A-Za-z0-9_-]+`' <<<"$cell")
        [ "$bare" -eq 0 ] || echo "$file"
    done
}

wrong=$(named | while read -r file theorem; do
    if [ ! -f "$file" ]; then
        echo "README names $file, which is not there"
    elif [ -z "$theorem" ]; then
        echo "README names no theorem of $file"
    elif ! grep -qE "^ *pub $theorem :" "$file"; then
        echo "README names $theorem, which $file has not"
    fi
done)
for theorem in $promised; do
    named | grep -q " $theorem\$" || wrong+=$'\n'"README's tables of theorems lack $theorem"
done
[ -z "$wrong" ] || { echo "${wrong#$'\n'}"; exit 1; }
