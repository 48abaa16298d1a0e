#!/usr/bin/env bash
# Fuzzes the byte calls of the static library from outside, for so many seconds: fuzz.sh [SECONDS]. It ends with the number of
# executions, and fails where anything was found. It is not part of the tests; docs/FUZZING.md says more. Two words instead:
# fuzz.sh planted    builds the target once for each fault of fuzz/planted.c and sees that each is noticed
# fuzz.sh valgrind   runs the inputs that were kept under valgrind, and says how many of the archive's instructions they run
set -eu
cd "$(dirname "$0")/.."
work=target/fuzz
archive=target/staticlib/libgateway.a
found=$work/found
faults=15
mkdir -p "$work/corpus" "$found"

# Whether clang can link a target.
can_build() {
    echo 'int LLVMFuzzerTestOneInput(const char *d, long n) { return d && n ? 0 : 0; }' |
        clang -fsanitize=fuzzer,address,undefined -x c - -o "$work/empty" 2>/dev/null
}

# build OUTPUT FLAGS..
build() {
    local output=$1
    shift
    clang -std=c11 -O1 -g -Wall -Wextra -Werror -ffp-contract=off -fsanitize=fuzzer,address,undefined \
        -fno-sanitize-recover=undefined "$@" -Irust/gateway/include fuzz/target.c fuzz/job.c fuzz/lend.c "$archive" -lm -o "$output"
}

# run TARGET SECONDS FOLDER..: inputs of up to 1024 bytes; a call of more than 25 seconds is a finding.
run() {
    local target=$1 seconds=$2
    shift 2
    "$target" -max_total_time="$seconds" -max_len=1024 -len_control=0 -timeout=25 -print_final_stats=1 \
        -artifact_prefix="$found/" "$@" >"$work/log" 2>&1
}

executions() { sed -n 's/^stat::number_of_executed_units: *//p' "$work/log"; }

what() { grep -m 1 -oE 'FOUND: .*|AddressSanitizer: [a-zA-Z-]+|runtime error: .*|libFuzzer: [a-z-]+' "$work/log" || echo 'see target/fuzz/log'; }

planted() {
    local fault missed=0 found=$work/planted.found
    mkdir -p "$found"
    for fault in $(seq "$faults"); do
        clang -std=c11 -O1 -Wall -Wextra -Werror "-DPLANTED=$fault" -Irust/gateway/include -c fuzz/planted.c -o "$work/planted.o"
        build "$work/planted" -Dzescolumba_fit=planted_fit -Dzescolumba_weight=planted_weight "$work/planted.o"
        if run "$work/planted" 60; then
            echo "fault $fault: NOT noticed in $(executions) executions"
            missed=1
        else
            echo "fault $fault: noticed after $(executions) executions ($(what))"
        fi
    done
    rm -rf "$found"
    return "$missed"
}

# The addresses of the archive's instructions in the program, but for those that only fill up.
instructions() {
    nm "$archive" | awk '$2 ~ /^[tT]$/ { print $3 }' >"$work/functions"
    objdump -d --no-show-raw-insn "$work/replay" | awk -v names="$work/functions" '
        BEGIN { while ((getline name < names) > 0) wanted["<" name ">:"] = 1 }
        />:$/ { inside = $2 in wanted; next }
        inside && /^ / && !/nop|xchg +%ax,%ax|data16/ { sub(":", "", $1); print "0x" $1 }' | sort
}

# Memcheck looks at each access and each value of the archive's code; callgrind notes which instructions were run.
under_valgrind() {
    local tool='valgrind --quiet --error-exitcode=1' run all
    command -v valgrind >/dev/null || apt-get install -y valgrind
    clang -std=c11 -O1 -Wall -Wextra -Werror -ffp-contract=off -no-pie -Wl,-S -Irust/gateway/include fuzz/target.c fuzz/job.c \
        fuzz/lend.c fuzz/replay.c "$archive" -lm -o "$work/replay"
    $tool "$work/replay" "$work"/corpus/*
    $tool --tool=callgrind --dump-instr=yes --compress-pos=no --compress-strings=no --callgrind-out-file="$work/callgrind" \
        "$work/replay" "$work"/corpus/* >/dev/null
    instructions >"$work/all"
    awk '/^0x/ { print $1 }' "$work/callgrind" | sort -u | comm -12 - "$work/all" >"$work/run"
    run=$(wc -l <"$work/run") all=$(wc -l <"$work/all")
    echo "$run of the archive's $all instructions run, memcheck found nothing"
}

can_build || { apt-get install -y clang libclang-rt-14-dev && can_build; }
bash scripts/prove.sh gateway
case "${1-}" in
planted) planted; exit ;;
valgrind) under_valgrind; exit ;;
esac
build "$work/target"
if run "$work/target" "${1:-60}" "$work/corpus"; then
    echo "$(executions) executions, nothing found"
else
    echo "$(executions) executions, and found: $(what); the input lies in $found, what was said in $work/log"
    exit 1
fi
