#!/bin/bash
# Times drawings of the traces that runs print: of the sessions that bench/checks.sh has checked, of 262,000 accesses over nine volumes in
# a cascade of eight targets and in eight targets of one source. Beside the check of a trace stand the drawing of its last entry alone
# and that of all entries, as text. It prints a table and judges nothing.
#
#     bench/view.sh [ROUNDS [ACCESSES]]
#
# Of the rounds (3, unless told otherwise) the fastest is told; memory is the greatest of a drawing of all, its input among it.
. "$(dirname -- "$(readlink -f -- "${BASH_SOURCE[0]}")")/common.sh"
build_program
"$top/bin/fcview" <"$top/traces/first-volume" >/dev/null
checker=$program
viewer=$top/crates/fcview/out/fcview
rounds=${1:-3}
accesses=${2:-262000}

# The fastest of the rounds of a program on the trace, and the greatest memory.
fastest() { # PROGRAM WORD..
    local round seconds memory least='' most=0
    program=$1
    shift
    for ((round = 0; round < rounds; round++)); do
        read -r seconds memory < <(timed "$room/trace" "$@")
        least=$(lesser "$seconds" "$least")
        most=$((memory > most ? memory : most))
    done
    echo "$least $most"
}

printf '%-10s %9s %9s %9s %9s %9s %9s %9s\n' shape entries 'input MiB' 'checked s' 'last s' 'all s' 'text MiB' MiB
for shape in cascade fan; do
    copies_read_and_written "$shape" "$accesses" >"$room/session"
    program=$checker
    timed "$room/session" run --grain 64 --trace >/dev/null
    mv -- "$room/history" "$room/trace"
    entries=$(grep -cx '[.]' -- "$room/trace")
    read -r checked _ < <(fastest "$checker" check)
    read -r last _ < <(fastest "$viewer" --at "$((entries - 1))")
    read -r all memory < <(fastest "$viewer")
    printf '%-10s %9d %9.1f %9.3f %9.3f %9.3f %9.1f %9d\n' "$shape" "$entries" \
        "$(awk -v b="$(wc -c <"$room/trace")" 'BEGIN { print b / 1048576 }')" "$checked" "$last" "$all" \
        "$(awk -v b="$(wc -c <"$room/history")" 'BEGIN { print b / 1048576 }')" "$memory"
done
