#!/usr/bin/env bash
# archive.sh: proves the core and writes target/staticlib/libmagicyuv.a, the archive that a host links. The crate of the exports is called
# magicyuv_c, since a crate is a library or a static library; the archive keeps the name that hosts link. Of its host it may need memset and no other name: else
# this ends with status 1.
set -eu
cd "$(dirname "$0")/.."
(cd crates/magicyuv_c && rt lib)
mkdir -p target/staticlib
cp crates/magicyuv_c/out/libmagicyuv_c.a target/staticlib/libmagicyuv.a
others=$(nm -u target/staticlib/libmagicyuv.a | awk '$1 == "U" && $2 != "memset" { print $2 }')
if [ -n "$others" ]; then
  echo "the archive needs of its host, beside memset:" $others >&2
  exit 1
fi
echo "target/staticlib/libmagicyuv.a"
