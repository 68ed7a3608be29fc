#!/usr/bin/env bash
# Times the console on texts of n and of 2n bytes: the time is to grow with the text and no faster.
# Usage: bench/linear.sh [n], where n is a count of bytes, 1 MiB if it is not given.
set -euo pipefail

cd "$(dirname "$0")/.."
program=crates/console/out/console
if [ ! -x "$program" ]; then
    (cd crates/console && rt run </dev/null) >/dev/null
fi
echo "program: $PWD/$program"

bytes=${1:-1048576}
texts=$(mktemp -d)
trap 'rm -r "$texts"' EXIT

# Repeats a part up to a count of bytes.
repeated() {
    python3 -c 'import sys
part, size = sys.argv[1].encode(), int(sys.argv[2])
sys.stdout.buffer.write((part * (size // len(part) + 1))[:size])' "$1" "$2"
}

# A text of a kind with a count of bytes.
make_text() {
    case $1 in
    short-tokens) repeated 'NOP ' "$2" ;;
    operands) repeated '! E 00,00 & M 255,15 = A 63,15 ' $(($2 / 31 * 31)) ;;
    one-number) printf '# ' && repeated 9 $(($2 - 2)) ;;
    leading-zeros) printf '# ' && repeated 0 $(($2 - 2)) ;;
    numbers) repeated "# $(repeated 0 1000) " $(($2 / 1003 * 1003)) ;;
    unknown-token) repeated x "$2" ;;
    separators) repeated ' ' "$2" ;;
    esac
}

# The best of three runs, in microseconds.
best_of() {
    local best='' start end i
    for i in 1 2 3; do
        start=${EPOCHREALTIME/[.,]/}
        "$program" <"$1" >"$texts/line" || true
        end=${EPOCHREALTIME/[.,]/}
        if [ -z "$best" ] || [ $((end - start)) -lt "$best" ]; then
            best=$((end - start))
        fi
    done
    echo "$best"
}

printf '%-14s %10s %10s %6s  %s\n' text "s at n" "s at 2n" ratio "line at 2n"
for kind in short-tokens operands one-number leading-zeros numbers unknown-token separators; do
    make_text "$kind" "$bytes" >"$texts/once"
    make_text "$kind" $((2 * bytes)) >"$texts/twice"
    once=$(best_of "$texts/once")
    twice=$(best_of "$texts/twice")
    python3 -c 'import sys
kind, once, twice, line = sys.argv[1], int(sys.argv[2]), int(sys.argv[3]), sys.argv[4]
print(f"{kind:<14} {once / 1e6:10.4f} {twice / 1e6:10.4f} {twice / max(once, 1):6.2f}  {line}")' \
        "$kind" "$once" "$twice" "$(cat "$texts/line")"
done
