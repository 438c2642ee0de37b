#!/usr/bin/env bash
# native_library.sh NAME..: each proved library as an archive that C and Rust can link; proves and builds it, and prints the paths. `rt` compiles
# for x86-64.
set -eu
[ $# -gt 0 ] || { echo "usage: native_library.sh NAME.." >&2; exit 2; }
crates=$(cd "$(dirname "$0")/../crates" && pwd -P)
paths=
for name in "$@"; do
    (cd "$crates/$name" && rt lib) >&2
    paths="$paths $crates/$name/out/lib$name.a"
done
echo "${paths# }"
