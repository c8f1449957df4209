#!/bin/sh
# cargo.sh VERB WORDS..: cargo for x86-64. On x86_64 it is cargo itself; on aarch64 (after install.sh) it builds for x86-64 and
# runs what it built under the kit's emulator, with the feature kit_emulator. VERB is one that takes features: build, run, test.
set -eu
here=$(cd "$(dirname "$0")" && pwd -P)
if [ "$(uname -m)" = x86_64 ]; then
    exec cargo "$@"
fi
if [ $# -eq 0 ]; then
    echo "cargo.sh VERB WORDS.." >&2
    exit 2
fi
verb=$1
shift
# Debian's compiler, since it is the one that the x86-64 library of install.sh belongs to.
export RUSTC=/usr/bin/rustc RUSTDOC=/usr/bin/rustdoc
export CARGO_NET_OFFLINE=true RUST_BACKTRACE=0
export CARGO_BUILD_TARGET=x86_64-unknown-linux-gnu
export CARGO_TARGET_X86_64_UNKNOWN_LINUX_GNU_LINKER=x86_64-linux-gnu-gcc
export CARGO_TARGET_X86_64_UNKNOWN_LINUX_GNU_RUNNER="$here/run.sh"
exec cargo "$verb" --features kit_emulator "$@"
