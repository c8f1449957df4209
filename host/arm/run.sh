#!/bin/sh
# run.sh PROGRAM WORDS..: runs an x86-64 program, elsewhere than on x86_64 under the kit's emulator with the kit's C library.
set -eu
if [ "$(uname -m)" = x86_64 ]; then
    exec "$@"
fi
. "$(dirname "$0")/kit.sh"
# Without a backtrace Rust's library does not open the program's own memory map, which the emulator dies of.
export RUST_BACKTRACE=0
exec "$part/toolchain/bin/qemu-x86_64" "$kit/toolchain/lib/ld-linux-x86-64.so.2" --library-path "$kit/toolchain/lib" "$@"
