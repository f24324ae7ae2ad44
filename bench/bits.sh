#!/bin/sh
# Words per second of count_words and first_in_difference over 2^20 words, each beside a plain loop.
# usage: bench/bits.sh [ROUNDS]
set -eu
cd "$(dirname "$0")/../crates/bench_bits"
rt run >/dev/null 2>&1 </dev/null || { echo "bench_bits isn't proved or doesn't build: run rt run in $PWD" >&2; exit 1; }
exec ./out/bench_bits "${1:-1000}"
