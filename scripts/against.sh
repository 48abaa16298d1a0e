#!/usr/bin/env bash
# against.sh REVISION [SECONDS]: times every line of the bench by the proved code as it is here and as it was at that revision, in one
# run, by turns, and says their ratios; some SECONDS (2) for each line. The revision is cloned into the folder that git keeps, where rt
# reads no crate, and proved there, which takes minutes the first time. It must be one that this toolchain proves. Leave the machine
# quiet meanwhile.
set -eu
cd "$(dirname "$0")/.."
revision=$(git rev-parse --verify "${1:?a revision}^{commit}")
before=$(git rev-parse --absolute-git-dir)/before
[ -d "$before" ] || git clone --quiet . "$before"
git -C "$before" fetch --quiet origin
git -C "$before" checkout --quiet --detach "$revision"

# placed FOLDER NAME: the archives of that folder as shared libraries, which can be loaded beside others of the same names. Four of
# them, in which the code stands 0, 16, 32 and 48 bytes further on, since that alone moves times by more than a tenth.
placed() {
    bash "$1/scripts/prove.sh" gateway
    bash "$1/scripts/prove.sh" measured
    for bytes in 0 16 32 48; do
        printf '.section .note.GNU-stack\n.section .text.first, "ax"\n.balign 64\n.skip 64 + %d\n' "$bytes" |
            cc -shared -o "target/$2.$bytes.so" -x assembler - -x none -Wl,--whole-archive "$1"/target/staticlib/lib{gateway,measured}.a -Wl,--no-whole-archive
    done
}
placed "$before" before
placed . after
cargo=$(cd rust && cargo build --offline --release --quiet --package bench && cargo metadata --offline --no-deps --format-version 1)
bench=$(sed 's/.*"target_directory":"\([^"]*\)".*/\1/' <<<"$cargo")/release/bench
# One processor throughout, so that a round is not split between two.
exec taskset -c 0 "$bench" against "${2:-2}" ./target/{before,after}.{0,16,32,48}.so
