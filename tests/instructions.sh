#!/usr/bin/env bash
# instructions.sh [KIT ..]: instructions an event, counted by valgrind, of the model, the tuned player and, if `bench` was built with the
# library, of the library; for reading, reading and playing, and the whole. Counted once with one turn and once with two, the rest cancels out.
set -eu
cd "$(dirname "$0")"
bench=${CARGO_TARGET_DIR:-target}/release/bench
[ -x "$bench" ] || cargo build --release --quiet --bin bench
count() { # WHO WHAT KIT TIMES
    valgrind --tool=callgrind --callgrind-out-file=/dev/null "$bench" --count "$@" 2>&1 | sed -n 's/.*Collected : *//p'
}
[ $# -gt 0 ] || set -- f3
for kit in "$@"; do
    for who in model tuned library; do
        events=$("$bench" --count "$who" read "$kit" 1 2>/dev/null) || continue
        line=$(printf '%-12s %-8s' "$kit" "$who")
        for what in read play whole; do
            one=$(count "$who" "$what" "$kit" 1) two=$(count "$who" "$what" "$kit" 2)
            line="$line $what $(((two - one) / events))"
        done
        echo "$line"
    done
done
