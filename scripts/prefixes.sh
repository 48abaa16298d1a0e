#!/usr/bin/env bash
# prefixes.sh PROGRAM JOB: gwrprint on every prefix of a job's bytes, from none to all, and on the job with bytes left over.
# What is owed is read off the prefix's length by document 01: a short header gives 1, then the first part cut short gives 2, 5 or 6;
# the whole job, with bytes left over or not, prints the listing stored beside it.
# Says what differs, and the exit status says whether anything does.
set -u
program=$1
job=$2
size=$(wc -c <"$job") || exit 2
read -r n p < <(od -An -v -t u8 -N 16 "$job")
places=$((40 + 16 * n))
predictors=$((places + 8 * n * p))
responses=$((predictors + 8 * n))
[ "$p" -gt 0 ] && [ "$size" -eq "$responses" ] || { echo "$job: not one whole job with predictors"; exit 2; }

# owed LENGTH: what is printed of so many bytes
owed() {
    if [ "$1" -lt 40 ]; then echo fit 1
    elif [ "$1" -lt "$places" ]; then echo fit 2
    elif [ "$1" -lt "$predictors" ]; then echo fit 5
    elif [ "$1" -lt "$responses" ]; then echo fit 6
    else cat "${job%.job}.out"; fi
}

differ=0
for ((length = 0; length <= size; length++)); do
    head -c "$length" "$job" | "$program" | cmp -s - <(owed "$length") || { echo "$job: its first $length bytes"; differ=1; }
done
for more in 1 8 "$size"; do
    { cat "$job"; head -c "$more" "$job"; } | "$program" | cmp -s - <(owed "$size") || { echo "$job: with $more bytes left over"; differ=1; }
done
exit "$differ"
