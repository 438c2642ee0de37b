#!/usr/bin/env bash
# robust.sh [--room] COMMAND ..: what the program does when its input, its output or its argument misbehaves. The exit has to be clean (no
# signal, no hang; a program whose reader went away may end by SIGPIPE), and what was printed has to be right as far as it goes.
# COMMAND is kitplay's path (`robust.sh ../crates/kitplay/out/kitplay`), or a script and that path; with --room, kitroom's. The model says what
# is right.
set -u
says=model_play
if [ "${1:-}" = --room ]; then says=model_room; shift; fi
[ $# -gt 0 ] || { echo "robust.sh [--room] COMMAND .." >&2; exit 2; }
command=()
for word in "$@"; do if [ -e "$word" ]; then command+=("$(realpath "$word")"); else command+=("$word"); fi; done
cd "$(dirname "$0")" || exit 2
target=${CARGO_TARGET_DIR:-target}
[ -x "$target/release/$says" ] && [ -x "$target/release/make_kit" ] || cargo build --release --quiet || exit 2
model=$target/release/$says make=$target/release/make_kit
room=$(mktemp -d) && trap 'rm -rf "$room"' EXIT
failed=0 passed=0

# what it complains of is shown if something failed
play() { timeout 60 "${command[@]}" "$@" 2>>"$room/complaints"; }

# how the program ended is clean
clean() { # NAME STATUS [also]
    if [ "$2" -lt 124 ] || [ "$2" = "${3:-none}" ]; then return 0; fi
    echo "FAILED  $1: ended with $2"
    failed=$((failed + 1))
    return 1
}

# the program printed exactly this
same() { # NAME STATUS GOT WANTED
    clean "$1" "$2" || return
    if cmp -s "$3" "$4"; then passed=$((passed + 1)); return; fi
    echo "FAILED  $1: printed $(head -c 200 "$3" | tr '\n' '/'), not $(head -c 200 "$4" | tr '\n' '/')"
    failed=$((failed + 1))
}

# the program printed the beginning of this, or nothing
begins() { # NAME STATUS GOT WANTED
    clean "$1" "$2" 141 || return
    if cmp -s "$3" <(head -c "$(wc -c <"$3")" "$4"); then passed=$((passed + 1)); return; fi
    echo "FAILED  $1: printed $(head -c 200 "$3" | tr '\n' '/')"
    failed=$((failed + 1))
}

lessons=../kits/lessons
kit=$lessons/switch.kit
small=$room/small large=$room/large
"$model" <$kit >"$small"
"$make" --large 3 >"$room/large.kit" && "$model" <"$room/large.kit" >"$large"
printf 'kit 1\n' >"$room/kit1"
printf 'kit 9\n' >"$room/kit9"

# ---- the lesson kits, and the argument
for name in $lessons/*.kit; do
    wanted=${name%.kit}.play
    if [ $says = model_room ]; then wanted=$room/wanted; "$model" <"$name" >"$wanted"; fi
    play <"$name" >"$room/got"
    same "$name" $? "$room/got" "$wanted"
done
if [ $says = model_room ]; then
    for word in 0 1 007 4096 4097 65535 65536 4294967296 18446744073709551616 18446744073709551617 "$(printf '9%.0s' {1..4000})" \
        '' ' ' -1 +1 1.0 '1 ' ' 1' 0x1 1e0 / : x '٣'; do
        play "$word" <$kit >"$room/got"
        same "argument '${word:0:30}'" $? "$room/got" <("$model" "$word" <$kit)
    done
    play 1 x <$kit >"$room/got"
    same "a second argument" $? "$room/got" <("$model" 1 <$kit)
    play x </dev/null >"$room/got"
    same "no number, and no kit" $? "$room/got" <("$model" x </dev/null)
    "$make" --length 65537 | play x >"$room/got"
    same "no number, and too long a kit" $? "$room/got" <("$model" x </dev/null)
fi

# ---- input
bytes=$(wc -c <$kit)
for ((i = 0; i < bytes; i++)); do
    dd if=$kit bs=1 skip="$i" count=1 2>/dev/null
    sleep 0.01
done | play >"$room/got"
same "byte by byte" $? "$room/got" "$small"

for ((i = 0; i < 8; i++)); do
    dd if="$room/large.kit" bs=4000 skip="$i" count=1 2>/dev/null
    sleep 0.05
done | play >"$room/got"
same "in pieces" $? "$room/got" "$large"

for n in 1 7 20 $((bytes - 1)); do
    { head -c "$n" $kit; sleep 0.05; } | play >"$room/got"
    same "a pipe that closes after $n bytes" $? "$room/got" <(head -c "$n" $kit | "$model")
done

play </dev/null >"$room/got"
same "empty input" $? "$room/got" "$room/kit1"
true | play >"$room/got"
same "empty pipe" $? "$room/got" "$room/kit1"
play <&- >"$room/got"
begins "standard input closed" $? "$room/got" "$room/kit1"
play <"$room" >"$room/got"
begins "standard input a folder" $? "$room/got" "$room/kit1"

"$make" --length 65536 >"$room/65536.kit"
"$model" <"$room/65536.kit" >"$room/65536"
play <"$room/65536.kit" >"$room/got"
same "65,536 bytes" $? "$room/got" "$room/65536"
cat "$room/65536.kit" | play >"$room/got"
same "65,536 bytes through a pipe" $? "$room/got" "$room/65536"
"$make" --length 65537 >"$room/65537.kit"
play <"$room/65537.kit" >"$room/got"
same "65,537 bytes" $? "$room/got" "$room/kit9"
cat "$room/65537.kit" | play >"$room/got"
same "65,537 bytes through a pipe" $? "$room/got" "$room/kit9"
head -c 3000000 /dev/zero | play >"$room/got"
same "3,000,000 bytes" $? "$room/got" "$room/kit9"
{ head -c 65537 /dev/zero; sleep 1; } | play >"$room/got"
same "65,537 bytes and then silence" $? "$room/got" "$room/kit9"

# ---- output
play <$kit >&-
clean "standard output closed" $? && passed=$((passed + 1))
play <"$room/large.kit" >&-
clean "standard output closed, a large kit" $? && passed=$((passed + 1))
play <$kit >/dev/full
clean "standard output full" $? && passed=$((passed + 1))
play <"$room/large.kit" >/dev/full
clean "standard output full, a large kit" $? && passed=$((passed + 1))
{ play <"$room/large.kit"; echo $? >"$room/status"; } | head -c 1000 >"$room/got"
begins "a reader that goes away" "$(cat "$room/status")" "$room/got" "$large"
{ play <"$room/large.kit"; echo $? >"$room/status"; } | true
clean "a reader that was never there" "$(cat "$room/status")" 141 && passed=$((passed + 1))
{ play <"$room/large.kit"; echo $? >"$room/status"; } | { sleep 1; cat; } >"$room/got"
same "a slow reader" "$(cat "$room/status")" "$room/got" "$large"
(ulimit -f 8; trap '' XFSZ; play <"$room/large.kit") >"$room/got" 2>/dev/null
begins "a file that may not grow" $? "$room/got" "$large"

[ "$failed" = 0 ] || cat "$room/complaints" >&2
echo "$(basename "${command[-1]}"): $passed passed, $failed failed"
[ "$failed" = 0 ]
