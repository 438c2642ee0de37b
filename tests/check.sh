#!/usr/bin/env bash
# check.sh [N]: the model's own tests, then N kits (3000) through everything that is there to be held against the model:
#   KITPLAY, KITROOM   the programs (crates/kitplay/out/kitplay), or a command, on one kit in 50
#   KIT_LIBRARY        the library's archives (native_library.sh prints their paths), on every kit
# and what the programs do when their input, output or argument misbehaves.
set -euo pipefail
kits=${1:-3000}
command -v cargo >/dev/null || { echo "check.sh needs Cargo" >&2; exit 1; }
# what is named relative to the folder where this was called
absolute() { for word in $1; do if [ -e "$word" ]; then realpath "$word"; else echo "$word"; fi; done | tr '\n' ' '; }
for name in KITPLAY KITROOM KIT_LIBRARY; do
    value=${!name:-}
    if [ -z "$value" ]; then
        unset "$name"
        echo "$name is not set: not compared"
        continue
    fi
    value=$(absolute "$value")
    value=${value% }
    [ -e "${value##* }" ] || { echo "$name: there is no ${value##* }" >&2; exit 1; }
    export "$name=$value"
done
cd "$(dirname "$0")"
cargo test --quiet 2>&1 | grep -E "^test result|FAILED|panicked|error" | sort | uniq -c
features=()
[ -z "${KIT_LIBRARY:-}" ] || features=(--features library)
cargo build --release --quiet "${features[@]}"
"${CARGO_TARGET_DIR:-target}/release/compare" "$kits" 1 --every 50
[ -z "${KITPLAY:-}" ] || ./robust.sh $KITPLAY
[ -z "${KITROOM:-}" ] || ./robust.sh --room $KITROOM
