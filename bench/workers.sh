#!/usr/bin/env bash
# Runs random scripts (200 where its first word gives no other number) on 8 workers and on none. The replies have to be
# alike, the lines apart that a peek decides: where it finds the answer the wait behind it is refused. Then it times, by
# the clock, the example that takes longest and four asks that are all put before the first is waited for, on 0, 1, 2
# and 4 workers. It needs the editor, which ./oriedita --build builds.
cd "$(dirname "$0")" || exit 1
count="${1:-200}"
editor=../crates/oriedita/out/oriedita
folder="$(mktemp -d /tmp/workers.XXXXXX)" || exit 1
trap 'rm -rf "$folder"' EXIT
TIMEFORMAT='%R'
[ -x "$editor" ] || { echo "workers: $editor is not built" >&2; exit 1; }

# replies WORKERS SCRIPT: the replies, without the lines that a peek decides.
replies() {
    timeout 60 "$editor" --workers "$1" <"$2" | grep -v -e ' running$' -e '^refused nothingasked '
}

differing=0
for seed in $(seq "$count"); do
    awk -v seed="$seed" -f scripts.awk >"$folder/script"
    replies 0 "$folder/script" >"$folder/none"
    replies 8 "$folder/script" >"$folder/eight"
    if ! cmp -s "$folder/none" "$folder/eight"; then
        echo "workers: the script of seed $seed is answered in another way on 8 workers"
        differing=$((differing + 1))
    fi
done
echo "workers: of $count scripts $differing were answered in another way on 8 workers than on none"

# strips STAMPS JOBS: a strip that is pleated into stamps, with so many jobs, all asked before the first wait.
strips() {
    awk -v stamps="$1" -v jobs="$2" 'BEGIN {
        print "budget 1000000000"
        for (k = 1; k < stamps; k++) print 2 + k % 2, k * 16 - 200, -200, k * 16 - 200, 200
        for (j = 0; j < jobs; j++) print "fold"
        for (j = 1; j <= jobs; j++) print "another", j
        for (j = 1; j <= jobs; j++) print "wait", j
    }'
}

# seconds WORKERS SCRIPT: the best of five runs by the clock.
seconds() {
    for _ in 1 2 3 4 5; do
        { time "$editor" --workers "$1" <"$2" >/dev/null; } 2>&1
    done | sort -n | head -n 1
}

strips 17 4 >"$folder/strips"
for script in ../examples/bird.txt "$folder/strips"; do
    for workers in 0 1 2 4; do
        echo "$(basename "$script" .txt) on $workers workers: $(seconds "$workers" "$script") s"
    done
done
[ "$differing" -eq 0 ]
