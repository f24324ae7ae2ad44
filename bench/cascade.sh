#!/bin/bash
# Times 262,000 accesses, each inside one grain of 64 KiB, over nine volumes of 64 grains that are copied to one another: in a
# cascade of eight targets, and in eight targets of one source. Beside it stands the time that copying one grain for each of
# the calls of disks takes. It prints a table and judges nothing.
#
#     bench/cascade.sh [ROUNDS]
#
# The accesses are writes and reads in turn, of 1 to 8 blocks. Of the rounds (3, unless told otherwise) the fastest is told.
. "$(dirname -- "$(readlink -f -- "${BASH_SOURCE[0]}")")/common.sh"
build_program
rounds=${1:-3}

printf '%-12s %9s %9s %10s %9s %9s\n' shape seconds MiB calls copies ratio
for shape in cascade fan; do
    copies_read_and_written "$shape" 262000 >"$room/session"
    calls=$(disk_calls "$room/session" 64)
    fastest='' fewest=''
    for ((round = 0; round < rounds; round++)); do
        read -r seconds memory < <(timed "$room/session" run --grain 64)
        fastest=$(lesser "$seconds" "$fastest")
        fewest=$(lesser "$(copies "$calls" 64)" "$fewest")
    done
    awk -v s="$shape" -v t="$fastest" -v m="$memory" -v c="$calls" -v k="$fewest" \
        'BEGIN { printf "%-12s %9.3f %9d %10d %9.3f %9.2f\n", s, t, m, c, k, t / (k > 0 ? k : 0.001) }'
done
