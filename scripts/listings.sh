#!/usr/bin/env bash
# The stored runs of gwrprint: each job of tests/listings/jobs.txt has a NAME.job, on which gwrprint must print NAME.out.
# None may be missing, and every ending that gwrprint can have must be among them (13 cannot come: it lends enough room).
# It is run as rt leaves it, crates/gwrprint/out/gwrprint. `make listings` writes the files anew from 000. The last line is 'N passed, M failed'.
set -u
cd "$(dirname "$0")/../tests/listings" || exit 2
. ../../scripts/count.sh
least=47

names=$(sed -n 's/^\([a-z0-9-]*\): .*/\1/p' jobs.txt)
for name in $names; do
    [ -f "$name.job" ] && ../../crates/gwrprint/out/gwrprint <"$name.job" 2>/dev/null | cmp -s - "$name.out"
    note $? "tests/listings/$name"
done
[ "$(wc -w <<<"$names")" -ge "$least" ]
note $? "tests/listings/jobs.txt names fewer than $least jobs"
absent=$(for number in {0..12} {14..18}; do cat ./*.out | grep -qE "^fit $number( |$)" || echo "$number"; done)
[ -z "$absent" ]
note $? "no stored run of gwrprint is answered ${absent//$'\n'/, }"
verdict
