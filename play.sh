#!/usr/bin/env bash
# play.sh KIT [N]: prints the play of a kit; with N, the room after its first N events. The first run proves and builds the programs, which
# takes some minutes.
set -eu
kit=${1:?usage: play.sh KIT [N]}
crates=$(cd "$(dirname "$0")" && pwd)/crates
name=kitplay
[ $# -lt 2 ] || name=kitroom
program=$crates/$name/out/$name
# (which also runs it, on nothing)
[ -x "$program" ] || (cd "$crates/$name" && rt run >/dev/null </dev/null)
shift
exec "$program" "$@" < "$kit"
