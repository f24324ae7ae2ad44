#!/bin/bash
# Times checks of the traces that runs print: of a session of 262,000 accesses, each inside one grain of 64 KiB, over nine volumes
# of 64 grains that are copied to one another, in a cascade of eight targets and in eight targets of one source. Each is checked
# alone, and then with its session behind it, which takes a second pass over the entries. Beside the check stands the time in which
# the trace was printed. It prints a table and judges nothing.
#
#     bench/checks.sh [ROUNDS [ACCESSES]]
#
# Of the rounds (3, unless told otherwise) the fastest is told; memory is the greatest of a check, its input among it.
. "$(dirname -- "$(readlink -f -- "${BASH_SOURCE[0]}")")/common.sh"
build_program
rounds=${1:-3}
accesses=${2:-262000}

# A row of the table: what was checked, the fastest of the rounds, and the verdict.
check_timed() { # WHAT INPUT MADE
    local round seconds memory checked='' most=0
    for ((round = 0; round < rounds; round++)); do
        read -r seconds memory < <(timed "$2" check)
        checked=$(lesser "$seconds" "$checked")
        most=$((memory > most ? memory : most))
    done
    awk -v w="$1" -v b="$(wc -c <"$2")" -v m="$3" -v c="$checked" -v k="$most" -v v="$(<"$room/history")" \
        'BEGIN { printf "%-22s %9.1f %9.3f %9.3f %9.2f %9d  %s\n", w, b / 1048576, m, c, c / (m > 0 ? m : 0.001), k, v }'
}

printf '%-22s %9s %9s %9s %9s %9s  %s\n' shape 'input MiB' 'made s' 'checked s' ratio MiB verdict
for shape in cascade fan; do
    copies_read_and_written "$shape" "$accesses" >"$room/session"
    made=''
    for ((turn = 0; turn < rounds; turn++)); do
        read -r seconds _ < <(timed "$room/session" run --grain 64 --trace)
        made=$(lesser "$seconds" "$made")
    done
    mv -- "$room/history" "$room/trace"
    check_timed "$shape" "$room/trace" "$made"
    { cat -- "$room/trace" && echo session && cat -- "$room/session"; } >"$room/both"
    check_timed "$shape, its session" "$room/both" "$made"
done
