#!/usr/bin/env bash
# Seconds of proving, by crate: of its check from nothing, of its must-fail edits with how many they are, and of its run if it is a
# program.
# times.sh: measures them one after the other, which takes an hour or more; make times is this. A crate's check is timed by
# `rt all verdict`, its edits by `rt must-fail --anew`, which begins with what `rt check` kept, and its program as rt last left it.
# times.sh A B: two tables that this wrote side by side, before and after.
# Each second is whole and of the clock: compare runs on the same machine, with nothing else running.
set -u
here=$(pwd)
cd "$(dirname "$0")/.." || exit 2

# figures FILE: lines 'CRATE CHECK EDITS SECONDS RUN' of a table, in its order; '-' for what there is none of.
figures() {
    awk '/^\| [a-z_]+ \|/ && $2 != "crate" && $2 != "all" { print $2, $4, $6, $8, $10 }' "$1"
}

# checked: measures the checks, as lines 'CRATE SECONDS'. rt says a line '== CRATE' as it ends one.
checked() {
    local line last=$SECONDS
    rt all verdict --jobs 1 2>&1 | tee "$room/said" | while IFS= read -r line; do
        [[ $line =~ ^==\ ([a-z_]+)$ ]] && [ "${BASH_REMATCH[1]}" != summary ] || continue
        echo "${BASH_REMATCH[1]} $((SECONDS - last))"
        last=$SECONDS
    done
    [ "${PIPESTATUS[0]}" -eq 0 ] || { cat "$room/said" >&2; exit 1; }
}

# edits CRATE: how many must-fail edits it has, and the seconds of trying them; '- -' for none.
edits() {
    local many began=$SECONDS
    many=$(find "crates/$1" -path '*/must-fail/*.edit' | wc -l)
    [ "$many" -gt 0 ] || { echo - -; return; }
    rt must-fail --anew "$1" >"$room/said" 2>&1 || { cat "$room/said" >&2; exit 1; }
    echo "$many $((SECONDS - began))"
}

# ran CRATE: the seconds of its program; '-' for a library.
ran() {
    local program=$PWD/crates/$1/out/$1 given=crates/$1/stdin began
    [ -f "crates/$1/src/main.rt" ] || { echo -; return; }
    [ -f "$given" ] || given=/dev/null
    bash scripts/prove.sh "$1" || exit 1
    began=$SECONDS
    "$program" <"$given" >/dev/null || exit 1
    echo $((SECONDS - began))
}

measured() {
    local crate seconds tried
    checked >"$room/checks" || exit 1
    while read -r crate seconds; do
        tried=$(edits "$crate") || exit 1
        echo "$crate $seconds $tried $(ran "$crate")" || exit 1
    done <"$room/checks"
}

# table: those lines as a table, with their sums.
table() {
    echo '| crate | check s | edits | their s | run s |'
    echo '|---|---|---|---|---|'
    awk '
        { printf "| %s | %s | %s | %s | %s |\n", $1, $2, $3, $4, $5; for (k = 2; k <= 5; k++) sum[k] += $k }
        END {
            printf "| all | %d | %d | %d | %d |\n\n", sum[2], sum[3], sum[4], sum[5]
            printf "%d s of checks, %d edits in %d s, runs in %d s: %d s in all\n", sum[2], sum[3], sum[4], sum[5], sum[2] + sum[4] + sum[5]
        }'
}

# beside A B: both, before and after.
beside() {
    echo '| crate | check s | edits | their s | run s |'
    echo '|---|---|---|---|---|'
    awk '
        function pair(k,   a, b) {
            a = ((name, k) in was) ? was[name, k] : "-"
            b = ((name, k) in is) ? is[name, k] : "-"
            old[k] += a; new[k] += b
            return a == b ? a : a " → " b
        }
        FNR == 1 { file++ }
        !($1 in seen) { seen[$1]; order[++n] = $1 }
        { for (k = 2; k <= 5; k++) if (file == 1) was[$1, k] = $k; else is[$1, k] = $k }
        END {
            for (i = 1; i <= n; i++) { name = order[i]; printf "| %s | %s | %s | %s | %s |\n", name, pair(2), pair(3), pair(4), pair(5) }
            printf "| all | %d → %d | %d → %d | %d → %d | %d → %d |\n", old[2], new[2], old[3], new[3], old[4], new[4], old[5], new[5]
        }' "$1" "$2"
}

# read_as NAME FILE: its figures, which must be some; a relative path is from where this was called.
read_as() {
    local file=$2
    case $file in /*) ;; *) file=$here/$file ;; esac
    figures "$file" >"$room/$1" && [ -s "$room/$1" ] || { echo "times.sh: no figures in $2" >&2; exit 1; }
}

room=$(mktemp -d) || exit 2
trap 'rm -rf "$room"' EXIT
case $# in
0)
    measured >"$room/one" || exit 1
    table <"$room/one"
    ;;
2) read_as one "$1" && read_as two "$2" && beside "$room/one" "$room/two" ;;
*) echo "times.sh [A B]" >&2; exit 2 ;;
esac
