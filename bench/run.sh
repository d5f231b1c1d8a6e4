#!/bin/sh
# bench/run.sh [ROUNDS]: times the listing, and overlaps and running sums alone, on generated full archives. A benchmark, not a test.
# Needs a C compiler and GNU date. Programs are built by rt run, so the first run proves them.
set -eu
cd "$(dirname "$0")/.."
rounds=${1:-10}
out=build/bench
mkdir -p $out target/bin

build() { # a program's name
    (cd crates/"$1" && ${RT:-rt} run </dev/null) >$out/"$1".log 2>&1 || { cat $out/"$1".log; exit 1; }
    cp crates/"$1"/out/"$1" target/bin/"$1"
}
elapsed() { # an archive, then a command: nanoseconds of one run
    archive=$1
    shift
    start=$(date +%s%N)
    "$@" <"$archive" >$out/answer
    echo $(($(date +%s%N) - start))
}

build list
${CC:-cc} -std=c11 -O2 -o $out/generate bench/generate.c
for kind in full random through common; do
    $out/generate $kind 1 >$out/$kind.archive 2>$out/$kind.counts
done

echo "listing, whole program, mean of $rounds runs:"
for kind in full random through common; do
    read -r pairs strings <$out/$kind.counts
    sum=0
    for _ in $(seq "$rounds"); do
        sum=$((sum + $(elapsed $out/$kind.archive target/bin/list)))
    done
    mean=$((sum / rounds))
    echo "  $kind: $((mean / 1000)) us, $((mean / pairs)) ns per pair, columns over $strings strings"
done

# The program `bench`, for times without reading and printing:
#   target/bin/bench MODE ROUNDS < ARCHIVE     MODE: read, overlap or sum
# reads the archive once; then ROUNDS times, for each pair, does nothing (read), the overlap (overlap), or, for intersections of at
# most 12 dimensions, the whole running sum in each ring (sum). It prints one line: the number of overlaps or of
# added strings (all rings together), and a number made from every result.
build bench
echo "inside, $rounds rounds:"
for kind in full random through common; do
    for mode in overlap sum; do
        idle=$(elapsed $out/$kind.archive target/bin/bench read "$rounds")
        busy=$(elapsed $out/$kind.archive target/bin/bench $mode "$rounds")
        read -r count _ <$out/answer
        [ "$count" -gt 0 ] || continue
        case $mode in
        overlap) unit="overlap" ;;
        sum) unit="added string" ;;
        esac
        echo "  $kind: $(((busy - idle) / count)) ns per $unit ($count)"
    done
done
