#!/usr/bin/env bash
# Times the check of images with N and with 2N items. Each table has an image many times; in a second table its last word is
# wrong, so that the check stops at once: the difference is the check's own time.
# Usage: bench/check.sh [N], where N is a count of items, 2,048 if it is not given.
set -euo pipefail

cd "$(dirname "$0")/.."
program=crates/list_trials/out/list_trials
if [ ! -x "$program" ]; then
    (cd crates/list_trials && rt run </dev/null) >/dev/null
fi
echo "program: $PWD/$program"

items=${1:-2048}
rounds=200
tables=$(mktemp -d)
trap 'rm -r "$tables"' EXIT

# A table with an image of a kind: sentences, calls, or jumps to a mark at the end. The last word is handed over.
make_table() {
    python3 - "$1" "$2" "$3" "$rounds" <<'PYTHON'
import sys
kind, items, last, rounds = sys.argv[1], int(sys.argv[2]), int(sys.argv[3]), int(sys.argv[4])
parts = {
    'sentences': [(1, 0), (4, 0), (8, 0), (10, 0), (8, 8193), (7, 0), (12, 0), (8, 2), (30, 8192)],
    'calls': [(40, 1000), (41, 6), (42, 28672), (42, 28673), (42, 28674), (42, 28675)],
    'jumps': [(40, 7), (41, 8), (42, 0), (43, 9)],
}
part, body = parts[kind], []
while len(body) + len(part) + 2 <= items:
    body += part
body += [(0, 0)] * (items - 2 - len(body)) + [(50, 9), (51, 0)]
words = [w for item in body for w in item] + [2 * items + 6, items, 0, 0, 90, last]
line = 'refused 1 at 0' if last != 0xAC31 else f'passed {items} items 0 cells'
for _ in range(rounds):
    print(line, '[' + ' '.join(map(str, words)) + ']')
PYTHON
}

# The best of three runs over a table, in microseconds.
best_of() {
    local best='' start end i
    for i in 1 2 3; do
        start=${EPOCHREALTIME/[.,]/}
        "$program" <"$1" >"$tables/line"
        end=${EPOCHREALTIME/[.,]/}
        if [ -z "$best" ] || [ $((end - start)) -lt "$best" ]; then
            best=$((end - start))
        fi
    done
    echo "$best"
}

# The check's own time, in microseconds times the rounds.
check_time() {
    make_table "$1" "$2" 44081 >"$tables/right"
    make_table "$1" "$2" 0 >"$tables/wrong"
    echo $(($(best_of "$tables/right") - $(best_of "$tables/wrong")))
}

printf '%-10s %12s %12s %6s\n' list "us at $items" "us at $((2 * items))" ratio
for kind in sentences calls jumps; do
    once=$(check_time "$kind" "$items")
    twice=$(check_time "$kind" $((2 * items)))
    python3 -c 'import sys
kind, once, twice, rounds = sys.argv[1], *map(int, sys.argv[2:])
print(f"{kind:<10} {once / rounds:12.1f} {twice / rounds:12.1f} {twice / max(once, 1):6.2f}")' \
        "$kind" "$once" "$twice" "$rounds"
done
