#!/bin/bash
# Times a source of 1 GiB at grains of 256 KiB that is written and then copied once by seconds that pass, beside one read and
# one write of each grain as plain copies. It prints a table and judges nothing.
#
#     bench/advance.sh [ROUNDS]
. "$(dirname -- "$(readlink -f -- "${BASH_SOURCE[0]}")")/common.sh"
build_program
rounds=${1:-3}

session() { # whether the copy is made
    awk -v made="$1" 'BEGIN {
        print "mkvdisk -name A -size 1024"
        print "mkvdisk -name B -size 1024"
        for (line = 0; line < 256; line++) printf "write A %d 8192 %02x\n", line * 8192, line
        print "mkfcmap -source A -target B -copyrate 150"
        print "startfcmap -prep 0"
        if (made) print "advance -seconds 1"
    }'
}

fastest='' before='' plain=''
for ((round = 0; round < rounds; round++)); do
    session 0 >"$room/session"
    read -r seconds memory < <(timed "$room/session" run)
    before=$(lesser "$seconds" "$before")
    session 1 >"$room/session"
    read -r seconds memory < <(timed "$room/session" run)
    fastest=$(lesser "$seconds" "$fastest")
    plain=$(lesser "$(copies 8192 256)" "$plain")
done
copied=$(grep -c ' copy 0 ' "$room/history" || true)
printf '%-12s %9s %9s %10s %9s %9s\n' shape seconds MiB calls copies ratio
awk -v t="$fastest" -v b="$before" -v k="$plain" -v m="$memory" -v n="$copied" \
    'BEGIN { printf "%-12s %9.3f %9d %10d %9.3f %9.2f\n", "background", t - b, m, 2 * n, k, (t - b) / (k > 0 ? k : 0.001) }'
