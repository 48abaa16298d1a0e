#!/usr/bin/env bash
# The Rust side: layout, lints, tests, and the comparison with 000. Its last line is 'N passed, M failed'; the comparison counts
# as one, and not at all where the source of 000 is not at hand. The line before the last says how it went, or that it was left out.
# What the checks need must be there: without cargo, rustfmt or clippy they fail. It links the static libraries that scripts/prove.sh makes.
set -u
cd "$(dirname "$0")/../rust" || exit 2
. ../scripts/count.sh

if ! command -v cargo >/dev/null; then
    note 1 "no command cargo: the Rust tests and the comparison with 000 did not run"
    verdict
fi
export CARGO_TERM_COLOR=never

# part COMMAND COMPONENT: whether cargo has the command; without it the check fails.
part() {
    cargo "$1" --version >/dev/null 2>&1 && return
    note 1 "no command cargo $1: that check did not run (the toolchain's component $2 is missing)"
    return 1
}

if part fmt rustfmt; then
    cargo fmt --check >/dev/null
    note $? "cargo fmt --check"
fi
# The comparison needs the byte calls alone: it is built first, and runs while what is timed is proved and the rest is compiled.
log=$(mktemp)
compared=$(mktemp)
if cargo build --offline --release --quiet --package compare; then
    ../target/cargo/release/compare >"$compared" &
else
    false &
fi
comparing=$!
trap 'kill "$comparing" 2>/dev/null; rm -f "$log" "$compared"' EXIT

if part clippy clippy; then
    cargo clippy --offline --quiet --release --all-targets -- -D warnings
    note $? "cargo clippy"
fi

cargo test --offline --release --no-fail-fast 2>&1 | tee "$log" | grep -E '^(test result|test .*FAILED|error)'
status=${PIPESTATUS[0]}
# Each test counts, by the lines 'test result: ok. 9 passed; 0 failed; ..'.
while read -r good bad; do
    passed=$((passed + good))
    failed=$((failed + bad))
done < <(sed -n 's/^test result: .* \([0-9]*\) passed; \([0-9]*\) failed;.*/\1 \2/p' "$log")
note "$status" "cargo test"

wait "$comparing"
status=$?
grep -v '^comparison with 000: ' "$compared"
# 3: the source of 000 is missing, and the comparison has said where it is looked for.
if [ "$status" -eq 3 ]; then
    remark='comparison with 000 left out: its source is not here'
else
    note "$status" "comparison with 000"
    remark=$(grep '^comparison with 000: ' "$compared" || echo 'comparison with 000: it gave no verdict')
fi
verdict
