#!/bin/bash
# Counts the processor seconds of 10,000 writes, each inside one grain of 64 KiB, over nine volumes of 64 grains in a cascade of eight
# targets, with metadata on a disk in memory (`stop 4294967295`, which is never reached) and without (`run --grain 64`); and those of the
# same volumes and copies without a write. It prints a table, says where metadata's seconds go, and judges nothing.
#
#     bench/stops.sh [WRITES [ROUNDS]]
#
# Of the rounds (5, unless told otherwise), made by turns, the least is told, the system's seconds among them. A record is put for each
# write, and for each grain that is moved before it.
. "$(dirname -- "$(readlink -f -- "${BASH_SOURCE[0]}")")/common.sh"
have_program
writes=${1:-10000}
rounds=${2:-5}

processor_seconds() { # SESSION WORD..
    local session=$1 TIMEFORMAT='%3U %3S'
    shift
    { time "$program" "$@" <"$session" >"$room/history"; } 2>&1 | awk '{ print $1 + $2 }'
}

copies_read_and_written cascade $((2 * writes)) | grep -v '^read' >"$room/whole"
grep -v '^write' "$room/whole" >"$room/begun"
declare -A least
for ((round = 0; round < rounds; round++)); do
    for session in begun whole; do
        least[$session-without]=$(lesser "$(processor_seconds "$room/$session" run --grain 64)" "${least[$session-without]-}")
        least[$session-with]=$(lesser "$(processor_seconds "$room/$session" stop 4294967295)" "${least[$session-with]-}")
    done
done
processor_seconds "$room/whole" run --grain 64 --trace >/dev/null
moved=$(awk '/^\+ move/ { n++ } END { print n + 0 }' "$room/history")

awk -v writes="$writes" -v moved="$moved" -v whole="${least[whole-without]} ${least[whole-with]}" \
    -v begun="${least[begun-without]} ${least[begun-with]}" '
    function row(what, without, with) { printf "%-32s %10.3f %10.3f %8.2f\n", what, without, with, with / (without > 0 ? without : 0.001) }
    BEGIN {
        split(whole, w, " ")
        split(begun, b, " ")
        printf "%-32s %10s %10s %8s\n", "processor seconds", "without", "with", "factor"
        row("volumes, copies and " writes " writes", w[1], w[2])
        row("without a write", b[1], b[2])
        row("the writes", w[1] - b[1], w[2] - b[2])
        records = writes + moved
        added = w[2] - w[1]
        once = b[2] - b[1]
        printf "metadata adds %.3f s: %.3f s for its disk of 64 MiB, made, synced and read back, and for commands;", added, once
        printf " %.3f s for %d records, %.1f us each\n", added - once, records, (added - once) * 1e6 / records
    }'
