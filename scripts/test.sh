#!/usr/bin/env bash
# All tests: the tables of definitions and theorems (README), names, and of functions without an ensures (docs/DECISIONS.md); layout,
# proofs, must-fail edits and programs (rt ci); stored runs of gwrprint (scripts/listings.sh) and every prefix of one; the Rust side
# (scripts/rust.sh: its tests, and the comparison with 000); and what the proofs assume.
# The last line is 'N passed, M failed', and the exit status says whether M is 0. The line before it is about the comparison: where
# the source of 000 is not here, it says that the comparison was left out.
set -u
cd "$(dirname "$0")/.." || exit 2
. scripts/count.sh

bash scripts/reading.sh
note $? "the table of definitions in README (scripts/reading.sh fix)"
bash scripts/theorems.sh
note $? "the tables of theorems in README"
bash scripts/names.sh
note $? "names that specs/ define twice (scripts/names.sh)"
bash scripts/contracts.sh
note $? "the functions without an ensures in docs/DECISIONS.md (scripts/contracts.sh list)"

said=$(mktemp)
trap 'rm -f "$said"' EXIT

# run COMMAND..: shows what it writes, which is then in the file $said too, and counts what its last line says.
run() {
    local status last before
    "$@" 2>&1 | tee "$said"
    status=${PIPESTATUS[0]}
    last=$(tail -n 1 "$said")
    before=$(tail -n 2 "$said" | head -n 1)
    if [[ $last =~ ^([0-9]+)\ passed,\ ([0-9]+)\ failed ]]; then
        passed=$((passed + BASH_REMATCH[1]))
        failed=$((failed + BASH_REMATCH[2]))
        [ "$status" -eq 0 ] || [ "${BASH_REMATCH[2]}" -gt 0 ] || note 1 "$* ended with status $status"
    else
        note 1 "$* gave no verdict"
    fi
    [[ $before != 'comparison with 000'* ]] || remark=$before
}

# A must-fail edit that cannot be applied or read fails nothing in rt ci, and is counted as bad at the end of its line 'rt: ok'.
run rt ci
grep -q '^rt: ok' "$said" && ! grep -qE '^rt: ok.*, [0-9]+ bad' "$said"
note $? "rt ci says 'rt: ok', with no bad must-fail edit"
run bash scripts/listings.sh
bash scripts/prefixes.sh crates/gwrprint/out/gwrprint tests/listings/gaussian-distance.job
note $? "gwrprint on every prefix of a job (scripts/prefixes.sh)"
for name in gateway measured; do
    bash scripts/prove.sh "$name"
    note $? "the static library $name (scripts/prove.sh)"
done
run bash scripts/rust.sh
bash scripts/axioms.sh
note $? "what the proofs assume (scripts/axioms.sh)"
verdict
