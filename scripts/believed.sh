#!/usr/bin/env bash
# What a reader must believe: the lines of specs/ that the statements of the three demands (`demand_one`, `demand_two`, `demand_three` in
# proofs/) cite, without imports, `unfolding` lines (which say nothing of what a definition is), comments and blank lines. Counted
# definition by definition, those of the demands' own files specs/Demand*.antt apart, and by whole files that `use` reaches; of all three
# demands, and of some alone. `believed.sh list` has a line for each file as well: its cited lines, all of its lines, its name.
#
# A definition runs from its signature (or `pub record`, `pub data`) to the next one, and the head of a `module _ ..` goes with each in it.
# It cites the names of its text as its file's imports give them; a bound variable of the same name as a definition in sight counts as
# that, so that the count errs upwards. Types that the sources declare are no lines of specs/.
set -eu
cd "$(dirname "$0")/.."

# roots DEMAND..: the files in proofs/ that prove them.
roots() {
    local demand
    for demand in "$@"; do
        grep -lE "^ *pub demand_$demand :" crates/*/proofs/*.antt || { echo "believed.sh: nothing in proofs/ states demand_$demand" >&2; return 2; }
    done
}

# count DEMAND..: 'CITED OWN BOTH REACHED', and with list before it a line of each file that is reached.
count() {
    local proofs
    proofs=$(roots "$@")
    # shellcheck disable=SC2086
    awk -v list="${list:-}" -v demands="$*" '
        # the file of specs/ that a path of `use` leads to, or nothing
        function file_of(path,   part, n) {
            n = split(path, part, ".")
            if (n < 4 || part[1] != "Rattle" || part[3] != "specs" || part[4] == "declared") return ""
            return "crates/" part[2] "/specs/" part[4] ".antt"
        }
        function import(line,   path, names, n, name, i) {
            sub(/^ *(unfoldable )?(pub )?use /, "", line)
            if (line ~ / as /) {
                path = line; sub(/ as .*/, "", path); sub(/.* as /, "", line); gsub(/ /, "", line)
                if (file_of(path) != "") { alias[file, line] = file_of(path); uses[file] = uses[file] " " file_of(path) }
                return
            }
            path = line; sub(/\.\{.*/, "", path); sub(/.*\.\{/, "", line); gsub(/[} ]/, "", line)
            if (file_of(path) == "") return
            n = split(line, name, ",")
            for (i = 1; i <= n; i++) from[file, name[i]] = file_of(path)
        }
        function item(name) {
            now = ++items; home[now] = file
            if (name != "") at[file, name] = now
            if (head && name != "") text[now] = " <" head ">"
        }
        # whether a line begins a definition, and its name
        function signed(line) {
            sub(/^ *(abbrev |unfoldable )?(pub )?/, "", line)
            if (line ~ /^(record|data) /) { sub(/^[a-z]+ /, "", line); sub(/[ :].*/, "", line); return line }
            return line ~ /^[^ ()=]+ :/ ? substr(line, 1, index(line, " ") - 1) : ""
        }
        FNR == 1 { file = FILENAME; base = 0; head = 0; now = 0 }
        /^ *(--.*)?$/ || /^ *pub mod / || /^ *unfolding / { next }
        /^ *(unfoldable )?(pub )?use / { import($0); next }
        {
            match($0, /^ */); indent = RLENGTH
            if (indent == 0) { base = 0; head = 0 }
            if ($1 == "module" && indent == 0) { item(""); head = now; base = 2 }
            else if (indent == base && (name = signed($0)) != "") { item(name); data = /^ *pub data / }
            else if (data && indent == base + 2 && (name = signed($0)) != "") at[file, name] = now
            lines[now]++
            total[file]++
            sub(/ -- .*/, "")
            text[now] = text[now] " " $0
            # the statement of a theorem ends where its proof begins
            if (signed($0) ~ /^demand_/) { stated = now; wanted = signed($0) }
            else if (stated == now && indent == base) { text[now] = kept }
            kept = text[now]
        }
        function cite(i) { if (i && !(i in cited)) { cited[i]; queue[++last] = i } }
        function reach(f,   part, n, i) {
            if (f in reached || !total[f]) return
            reached[f]
            n = split(uses[f], part, " ")
            for (i = 1; i <= n; i++) reach(part[i])
        }
        # the file that defines what file f imports by this name, through those that hand it on
        function origin(f, word) {
            while ((f, word) in from) f = from[f, word]
            return f
        }
        # what a word of file f names
        function look(f, word,   i, a) {
            if ((f, word) in at) return at[f, word]
            if ((f, word) in from) return at[origin(f, word), word]
            i = index(word, ".")
            if (i < 2) return 0
            a = substr(word, 1, i - 1)
            return ((f, a) in alias) ? at[alias[f, a], substr(word, i + 1)] : 0
        }
        END {
            for (pair in from) { split(pair, part, SUBSEP); uses[part[1]] = uses[part[1]] " " origin(part[1], part[2]) }
            n = split(demands, demand, " ")
            for (f in uses) for (i = 1; i <= n; i++) if ((f, "demand_" demand[i]) in at) { root[at[f, "demand_" demand[i]]]; cite(at[f, "demand_" demand[i]]) }
            for (k = 1; k <= last; k++) {
                i = queue[k]; s = text[i]
                if (match(s, /<[0-9]+>/)) cite(substr(s, RSTART + 1, RLENGTH - 2) + 0)
                gsub(/[][(){},;\\]|λ|<[0-9]+>/, " ", s)
                m = split(s, word, " ")
                for (j = 1; j <= m; j++) {
                    sub(/\.$/, "", word[j])
                    c = look(home[i], word[j])
                    if (c) { cite(c); if (i in root && home[c] ~ /\/specs\//) reach(home[c]) }
                }
            }
            for (i in cited) if (home[i] ~ /\/specs\//) {
                of[home[i]] += lines[i]
                if (home[i] ~ /\/specs\/Demand[A-Z]/) own += lines[i]; else sum += lines[i]
            }
            for (f in reached) { whole += total[f]; if (list != "") printf "%5d %5d  %s\n", of[f], total[f], f | "sort -k3" }
            if (list != "") close("sort -k3")
            print sum, own, sum + own, whole
        }' $proofs crates/*/specs/*.antt
}

[ "${1:-}" != list ] || list=yes count one two three | sed '$d'
tell() { # tell WHAT DEMAND..
    local counted
    counted=$(count "${@:2}")
    # shellcheck disable=SC2086
    printf '%-17s cite %4d lines and say %3d: %4d by definitions, %4d by whole files\n' "$1" $counted
}
tell 'the three demands' one two three
tell 'demands 1 and 3' one three
tell 'demand 1' one
tell 'demand 3' three
