#!/usr/bin/env bash
# Measures the exact numbers, the tests of open regions, layers, editing and folding against plain Rust, replays runs of
# the board among threads, measures the reading of script text against `wc -w` and of blocks, and times the examples and
# strips of stamps that are folded. Its word is the number of rounds of numbers (12000 where there is none). Times are processor
# times, the best of five, where nothing else is said.
cd "$(dirname "$0")" || exit 1
rounds="${1:-12000}"
times=5
TIMEFORMAT='%U %S'
# a million tests of pairs
region_rounds=3907
board_runs=10000
editor=../crates/oriedita/out/oriedita
folder="$(mktemp -d /tmp/bench.XXXXXX)" || exit 1
trap 'rm -rf "$folder"' EXIT

# seconds FILE WORD..: the processor time of the words with the file as input.
seconds() {
    local input="$1"
    shift
    { time "$@" <"$input" >/dev/null 2>&1; } 2>&1 | awk '{ printf "%.3f\n", $1 + $2 }'
}

# race FILE FIRST SECOND: runs both in turn, and prints the best time of each.
race() {
    local _
    for _ in $(seq "$times"); do
        # shellcheck disable=SC2086
        echo "$(seconds "$1" $2) $(seconds "$1" $3)"
    done | awk 'NR == 1 { a = $1; b = $2 } { if ($1 < a) a = $1; if ($2 < b) b = $2 } END { print a, b }'
}

# same_checksums OURS THEIRS ROUNDS: stops unless both programs print the same checksum.
same_checksums() {
    local count ours theirs
    for count in 1 3 "$3"; do
        # shellcheck disable=SC2086
        ours=$($1 "$count")
        # shellcheck disable=SC2086
        theirs=$($2 "$count")
        if [ -z "$ours" ] || [ "$ours" != "$theirs" ]; then
            echo "the checksums of $count rounds differ: '$ours' and '$theirs'"
            exit 1
        fi
    done
    echo "checksum   $ours"
}

# beside NAME ROUNDS: the proved program crates/bench_NAME beside NAME.rs.
beside() {
    local proved="../crates/bench_$1/out/bench_$1"
    echo "== $1, $2 rounds"
    (cd "../crates/bench_$1" && rt run -- 1) >"$folder/log" 2>&1 || { cat "$folder/log"; exit 1; }
    rustc -O --edition 2024 -o "$folder/$1" "$1.rs" || exit 1
    same_checksums "$proved" "$folder/$1" "$2"
    race /dev/null "$proved $2" "$folder/$1 $2" | awk '{
        printf "proved     %s s\nplain Rust %s s\nratio      %.2f\n", $1, $2, $1 / $2 }'
}

# threads RUNS: the histories of so many runs of the board with eight workers, replayed by board.rs.
threads() {
    echo "== board, $1 runs"
    (cd ../crates/bench_board && rt run -- 1) >"$folder/log" 2>&1 || { cat "$folder/log"; exit 1; }
    rustc -O --edition 2024 -o "$folder/board" board.rs || exit 1
    ../crates/bench_board/out/bench_board "$1" histories | "$folder/board" || exit 1
}

# measure NAME WORDS ROUNDS: a measure of the proved program crates/bench_NAME beside NAME.rs, both built before.
measure() {
    local proved="../crates/bench_$1/out/bench_$1 $2" plain="$folder/$1 $2"
    echo "== $1, $2, $3 rounds"
    if [ "$($proved 1)" != "$($plain 1)" ]; then
        echo "the checksums differ"
        exit 1
    fi
    race /dev/null "$proved $3" "$plain $3" | awk '{
        printf "proved     %s s\nplain Rust %s s\nratio      %.2f\n", $1, $2, $1 / $2 }'
}

# The measures of editing.
all_editing() {
    (cd ../crates/bench_editing && rt run -- pieces 1) >"$folder/log" 2>&1 || { cat "$folder/log"; exit 1; }
    rustc -O --edition 2024 -o "$folder/editing" editing.rs || exit 1
    measure editing crossing 200
    measure editing held 20000
    measure editing lines 10
    measure editing edges 10
    measure editing check 100
    measure editing pieces 10
}

# The faces of a pattern, and the folded shape of them.
all_folding() {
    (cd ../crates/bench_folding && rt run -- fold 1) >"$folder/log" 2>&1 || { cat "$folder/log"; exit 1; }
    rustc -O --edition 2024 -o "$folder/folding" folding.rs || exit 1
    measure folding faces 500
    measure folding fold 500
}

# Pairs and triples of a crowd of faces, of the programs that `beside regions` built.
crowds() {
    measure regions "pairs 128" 200
    measure regions "triples 128" 50
    measure regions "pairs 256" 50
    measure regions "triples 256" 10
}

# layers ROUNDS: the pairs and rules of 128 strips, beside the plain program that `beside regions` built.
layers() {
    local proved="../crates/bench_layers/out/bench_layers" plain="$folder/regions layers"
    echo "== layers, $1 rounds"
    (cd ../crates/bench_layers && rt run -- 1) >"$folder/log" 2>&1 || { cat "$folder/log"; exit 1; }
    same_checksums "$proved" "$plain" "$1"
    race /dev/null "$proved $1" "$plain $1" | awk '{
        printf "proved     %s s\nplain Rust %s s\nratio      %.2f\n", $1, $2, $1 / $2 }'
}

# script KIND: about four million bytes of lines that are read whole and refused. Those of the kind zerolength end where
# they begin; those of the kind onborder lie within a side of the sheet, so their directions and sides are found too.
script() {
    awk -v kind="$1" 'BEGIN {
        for (n = 0; n < 80000; n++) {
            first = sprintf("-200.000 %d.%d+%d.25r2", n * 7 % 100, n % 8 * 125, n % 40)
            last = sprintf("-200.0 -%d.0625+%d.25r2", n * 13 % 90, n % 40)
            print 2 + n % 2, first, (kind == "zerolength" ? first : last)
        }
    }'
}

text() {
    echo "== script text, refused as $1"
    script "$1" >"$folder/script"
    if "$editor" <"$folder/script" | grep -q -v -x "refused $1"; then
        echo "some line of the script is answered otherwise"
        exit 1
    fi
    local bytes
    bytes=$(wc -c <"$folder/script")
    race "$folder/script" "$editor" "wc -w" | awk -v bytes="$bytes" '{
        printf "editor     %s s, %.0f bytes a second\nwc -w      %s s, %.0f bytes a second\n", $1, bytes / $1, $2, bytes / $2 }'
}

# block KIND: a block of about four million bytes: auxiliary lines (200 different ones), an edge of the sheet, or a crease
# that is there from the second line on.
block() {
    awk -v kind="$1" 'BEGIN {
        print "load"
        for (n = 0; n < 120000; n++) {
            if (kind == "lines") print 4, n * 7 % 200 ".0000", "-100.00", n * 7 % 200 ".0000", "100.00"
            if (kind == "edges") print 1, "-200.00 -200.00", "200.00 -200.00"
            if (kind == "held") print 2, "-200.00 10.00", "200.00 10.00"
        }
        print "end"
    }'
}

# The processor time of such a block, from its bytes to its reply.
blocks() {
    local kind
    echo "== blocks, processor seconds"
    for kind in lines edges held; do
        block "$kind" >"$folder/block"
        echo "$kind, $(wc -c <"$folder/block") bytes: $(race "$folder/block" "$editor" true | cut -d' ' -f1)"
    done
}

# The time of each example by the clock, from its first byte to its last.
all_examples() {
    local TIMEFORMAT='%R' script
    echo "== examples, seconds by the clock"
    for script in ../examples/*.txt; do
        printf '%-12s %s\n' "$(basename "$script" .txt)" "$({ time "$editor" <"$script" >/dev/null; } 2>&1)"
    done
}

# strip STAMPS: a strip that is pleated into so many stamps, with one ask for its first order.
strip() {
    awk -v n="$1" 'BEGIN {
        print "sheet 0 0", 10 * n, "0", 10 * n, "10 0 10"
        for (k = 1; k < n; k++) print 2 + k % 2, 10 * k, 0, 10 * k, 10
        print "budget 1000000000"; print "fold"; print "another 1"; print "wait 1"
    }'
}

# strips STAMPS..: the time by the clock to the first order of each strip.
strips() {
    local TIMEFORMAT='%R' stamps
    echo "== first order of a strip, seconds by the clock"
    for stamps in "$@"; do
        strip "$stamps" >"$folder/strip"
        printf '%s stamps, %s pairs: %s\n' "$stamps" "$((stamps * (stamps - 1) / 2))" \
            "$({ time "$editor" <"$folder/strip" >/dev/null; } 2>&1)"
    done
}

beside numbers "$rounds"
beside regions "$region_rounds"
crowds
layers 10
all_editing
all_folding
threads "$board_runs"
if [ -x "$editor" ]; then
    text zerolength
    text onborder
    blocks
    all_examples
    strips 12 16 17 18 19
else
    echo "script text and examples are left out: the editor is not built yet (./oriedita --build builds it)"
fi
