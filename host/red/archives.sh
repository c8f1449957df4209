#!/bin/sh
# archives.sh: links wrong decoders, the C stand-ins of this folder, in place of the archive, and runs over each the comparison, the
# known answers, and the test that lends memory that already holds the answer (tests/old_memory.rs). The first two must report
# every one of them; the last one passes what document 01 fears, a decoder that writes nothing. The proved archive goes first and
# must pass all three. Status 0 when all of that is so, else 1.
set -u
cd "$(dirname "$0")/.." || exit 1
work=$PWD/target/red
mkdir -p "$work"
export CARGO_TARGET_DIR="$work/cargo"
wrong=0

# one NAME COMPARE KNOWN OLD: runs the three over the archive that is set, prints a row, and holds each against ok or red.
one() {
    cargo build --release --quiet -p compare 2>"$work/$1.build" || { cat "$work/$1.build"; exit 1; }
    "$CARGO_TARGET_DIR/release/compare" --frames 500 --split 50 --alone 100 --no-small >"$work/$1.compare" 2>&1
    compared=$?
    count=$(sed -n 's/^DIFFERENCES: //p; s/^differences inside the domain: //p' "$work/$1.compare")
    cargo test --release --quiet -p magicyuv-host --test known >"$work/$1.known" 2>&1
    known=$?
    failed=$(sed -n 's/^test result: .* \([0-9]*\) failed.*/\1/p' "$work/$1.known")
    cargo test --release --quiet -p magicyuv-host --test old_memory >"$work/$1.old_memory" 2>&1
    old=$?
    echo "| $1 | $count (status $compared) | $failed of 10 failed | $([ $old -eq 0 ] && echo passed || echo failed) |"
    # A status other than 1 is a crash, not a report; the same holds for a known-answers run that did not count its failures.
    [ "$compared" -eq "$2" ] && [ -n "$count" ] && [ -n "$failed" ] || wrong=1
    [ "$([ $known -eq 0 ] && echo ok || echo red)" = "$3" ] || wrong=1
    [ "$([ $old -eq 0 ] && echo ok || echo red)" = "$4" ] || wrong=1
}

stand_in() {
    mkdir -p "$work/$1"
    rm -f "$work/$1/libmagicyuv.a"
    "${CC:-cc}" -O1 -c "red/$1.c" -o "$work/$1/$1.o" && "${AR:-ar}" rcs "$work/$1/libmagicyuv.a" "$work/$1/$1.o" || exit 1
    export MAGICYUV_ARCHIVE="$work/$1/libmagicyuv.a"
}

echo "| archive | comparison: differences | known answers | memory that already holds the answer |"
echo "|---|---|---|---|"
unset MAGICYUV_ARCHIVE
one proved 0 ok ok
stand_in refuses_always
one refuses_always 1 red red
stand_in writes_nothing
one writes_nothing 1 red ok
stand_in fixed_picture
one fixed_picture 1 red ok
stand_in zero_fills
one zero_fills 1 red red
[ $wrong -eq 0 ] || { echo "a row is not as it should be"; exit 1; }
echo "each wrong decoder is reported"
