#!/bin/bash
# Times folds of an image with 8,192 grains in 512 volumes, and batches of one record, beside plain copies of as many bytes to
# the same disk in memory. It prints a small table and judges nothing.
#
#     bench/meta.sh [FOLDS [BATCHES]]
#
# Each program makes so many folds (200, unless told otherwise) or batches (10,000; some 20,000 fit
# a half). Of three runs of each kind, made by turns, the fastest is told. Start and first image are counted with each.
. "$(dirname -- "$(readlink -f -- "${BASH_SOURCE[0]}")")/common.sh"
folds=${1:-200}
batches=${2:-10000}

build_bench bench_meta
meta=$top/crates/bench_meta/out/bench_meta

printf '%10s %10s %14s %14s %8s\n' what count 'ns each' 'ns, a copy' ratio
for what in fold batches; do
    if [ "$what" = fold ]; then count=$folds; else count=$batches; fi
    best_by_turns "$meta" "$what" "$count" -- "$meta" "$what-copy" "$count" |
        awk -v w="$what" -v n="$count" '{ printf "%10s %10d %14.0f %14.0f %8.2f\n", w, n, $1 / n, $2 / n, $1 / $2 }'
done
