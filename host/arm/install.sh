#!/bin/sh
# install.sh: once a machine, as root, on Debian for aarch64. Rust's library for x86-64 and a linker for it, so that the archive,
# which is x86-64, can be linked. Nothing is done on another processor.
set -eu
if [ "$(uname -m)" != aarch64 ]; then
    echo "nothing to install on $(uname -m)"
    exit 0
fi
dpkg --add-architecture amd64
apt-get update
DEBIAN_FRONTEND=noninteractive apt-get install --yes --no-install-recommends \
    rustc-web libstd-rust-web-dev:amd64 gcc-x86-64-linux-gnu libc6-dev-amd64-cross
