#!/bin/bash
# Times commands over 512 volumes and 512 mappings: two sources with 255 targets each, all copied. It prints how long each kind
# of command takes and judges nothing.
#
#     bench/commands.sh [COUNT]
. "$(dirname -- "$(readlink -f -- "${BASH_SOURCE[0]}")")/common.sh"
build_program
count=${1:-200}

tables() {
    awk 'BEGIN {
        for (v = 0; v < 512; v++) print "mkvdisk -name V" v " -size 64 -unit kb"
        for (m = 0; m < 510; m++) print "mkfcmap -source V" (m < 255 ? 0 : 1) " -target V" m + 2 " -copyrate 0"
        for (m = 0; m < 510; m++) print "startfcmap -prep " m
    }'
}

# So many times the lines, in each of them @ being a number from 0 on.
repeated() { # COUNT LINE..
    local n=$1
    shift
    printf '%s\n' "$@" | awk -v n="$n" '{ lines[NR] = $0 } END {
        for (i = 0; i < n; i++) for (l = 1; l <= NR; l++) { line = lines[l]; gsub(/@/, i, line); print line }
    }'
}

seconds_of() { # the session of standard input
    cat >"$room/session"
    local seconds
    read -r seconds _ < <(timed "$room/session" run --grain 64)
    printf '%s' "$seconds"
}

base=$(tables | seconds_of)
printf '%-58s %12s\n' "the tables: 512 volumes, 510 mappings, 510 starts" "$(awk -v b="$base" 'BEGIN { printf "%.3f s", b }')"
kind() { # WHAT COMMANDS-A-ROUND LINE..
    local what=$1 lines=$2 seconds
    shift 2
    seconds=$({ tables; repeated "$count" "$@"; } | seconds_of)
    awk -v w="$what" -v s="$seconds" -v b="$base" -v n="$((count * lines))" \
        'BEGIN { printf "%-58s %9.3f ms\n", w, (s - b) / n * 1000 }'
}
kind "a refused start" 1 'startfcmap -prep 0'
kind "a stop and a start" 2 'stopfcmap -force @' 'startfcmap -prep @'
kind "a stop, a removal, a new mapping and its start" 4 'stopfcmap @' 'rmfcmap -force @' 'mkfcmap -source V0 -target V@' 'startfcmap -prep 511'
kind "a refused removal (it settles)" 1 'rmfcmap 511'
kind "a group made and removed" 2 'mkfcconsistgrp -name g@' 'rmfcconsistgrp g@'
