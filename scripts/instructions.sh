#!/usr/bin/env bash
# Instructions of a fit, counted by callgrind: the same number in every run of the same program. Thousands for each local solve,
# of the proved code and of 000 with 01's steps, and their ratio. What comes before the fit is counted alone and taken off.
set -eu
cd "$(dirname "$0")/../rust"
command -v valgrind >/dev/null || apt-get install -y valgrind >/dev/null
cargo build --offline --release --quiet --package bench
bench=$(cargo metadata --offline --no-deps --format-version 1 | sed 's/.*"target_directory":"\([^"]*\)".*/\1/')/release/bench

count() { # count N P KERNEL KIND SIDE
    valgrind --tool=callgrind --callgrind-out-file=/dev/null "$bench" once "$@" 2>&1 | sed -n 's/.*Collected : //p'
}

kernels=(Gaussian Bisquare Exponential)
kinds=(distance count "searched distance" "searched count")
echo "| n | p | kernel | bandwidth | proved, thousands a solve | 000, thousands a solve | ratio |"
echo "|---|---|---|---|---|---|---|"
for size in "512 2" "512 7" "64 2"; do
    read -r n p <<<"$size"
    for kernel in 0 1 2; do
        # A search has a hundred fits in it: those of the small job alone.
        for kind in 0 1 $([ "$n" = 64 ] && echo 2 3); do
            before=$(count "$n" "$p" "$kernel" "$kind" none)
            ours=$(($(count "$n" "$p" "$kernel" "$kind" proved) - before))
            theirs=$(($(count "$n" "$p" "$kernel" "$kind" steps) - before))
            fits=$([ "$kind" -gt 1 ] && echo 103 || echo 1)
            awk -v n="$n" -v p="$p" -v kernel="${kernels[kernel]}" -v kind="${kinds[kind]}" -v ours="$ours" -v theirs="$theirs" -v fits="$fits" \
                'BEGIN { d = 1000 * n * fits; printf "| %d | %d | %s | %s | %.1f | %.1f | %.2f |\n", n, p, kernel, kind, ours / d, theirs / d, ours / theirs }'
        done
    done
done
