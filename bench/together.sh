#!/bin/bash
# Runs the session together 1,000 times with 1, 2 and 4 processors, and prints the runs a second, how many were right, and how
# many different histories were seen: its actors may come in many orders.
#
#     bench/together.sh [RUNS]
. "$(dirname -- "$(readlink -f -- "${BASH_SOURCE[0]}")")/common.sh"
runs=${1:-1000}

build_bench product_runs together 1

printf '%10s %14s %s\n' processors 'runs a second' 'what came of them'
for processors in 1 2 4; do
    from=$(date +%s%N)
    taskset -c "0-$((processors - 1))" "$product_runs" together "$runs" >"$room/told" ||
        echo 'product_runs failed' >&2
    to=$(date +%s%N)
    awk -v n="$processors" -v r="$runs" -v t="$((to - from))" \
        '{ told = told (NR > 1 ? ", " : "") $0 } END { printf "%10d %14.1f %s\n", n, r / t * 1e9, told }' "$room/told"
done
