#!/bin/bash
# Times rounds in the yard (take a part, be given a ticket, draw a number, put the part back) with 1, 2 and 4 threads over
# four lanes, beside a mutex for each lane and an atomic counter in plain Rust. It prints a small table and judges nothing.
#
#     bench/yard.sh [ROUNDS]
#
# Each thread makes so many rounds (2,000,000, unless told otherwise), and goes over the lanes in turn. Of three runs of
# each kind, made by turns, the fastest is told.
. "$(dirname -- "$(readlink -f -- "${BASH_SOURCE[0]}")")/common.sh"
rounds=${1:-2000000}

build_bench bench_yard
CARGO_TARGET_DIR=$room cargo build --release --offline --quiet --manifest-path "$top/bench/yard_rust/Cargo.toml"
yard=$top/crates/bench_yard/out/bench_yard
rust=$room/release/yard_rust

printf '%8s %22s %22s %8s\n' threads 'yard, rounds a second' 'Rust, rounds a second' ratio
for threads in 1 2 4; do
    best_by_turns "$yard" "$threads" "$rounds" -- "$rust" "$threads" "$rounds" |
        awk -v n="$threads" -v r="$rounds" \
            '{ printf "%8d %22.0f %22.0f %8.2f\n", n, n * r / $1 * 1e9, n * r / $2 * 1e9, $1 / $2 }'
done
