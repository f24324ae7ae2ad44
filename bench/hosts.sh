#!/bin/bash
# Times four hosts that write and read whole grains, each of a lane of its own, in the built program: in a block with all processors
# and with one, and the same lines outside of a block. It prints a small table and judges nothing.
#
#     bench/hosts.sh [ACCESSES]
#
# Each host makes so many writes (16,000, unless told otherwise), and reads behind each what it wrote. Of three runs of each kind,
# made by turns, the fastest is told. An entry that is neither done nor data is printed behind the table.
. "$(dirname -- "$(readlink -f -- "${BASH_SOURCE[0]}")")/common.sh"
accesses=${1:-16000}
rounds=3

build_program

# Each lane has sixteen grains of the volume. Outside of a block the hosts' lines stand one after the other by turns.
session() { # together | alone
    awk -v n="$accesses" -v kind="$1" '
        function access(host, i,    block) {
            block = ((i % 16) * 4 + host) * 128
            printf "write A %d 128 %02x\nread A %d 128\n", block, (i + host) % 256, block
        }
        BEGIN {
            print "mkvdisk -name A -size 4"
            if (kind == "alone") {
                for (i = 0; i < n; i++) for (host = 0; host < 4; host++) access(host, i)
                exit
            }
            print "together"
            for (host = 0; host < 4; host++) {
                printf "actor h%d host\n", host
                for (i = 0; i < n; i++) access(host, i)
            }
            print "end"
        }'
}

session together >"$room/together"
session alone >"$room/alone"
every=$(nproc)

seconds() { # PROCESSORS SESSION
    taskset -c "0-$(($1 - 1))" "$room/timed" "$program" run --grain 64 <"$room/$2" 2>&1 >"$room/history-$2" | cut -d ' ' -f 1
}

for ((round = 0; round < rounds; round++)); do
    beside=$(lesser "$(seconds "$every" together)" "${beside:-}")
    by_turns=$(lesser "$(seconds 1 together)" "${by_turns:-}")
    alone=$(lesser "$(seconds "$every" alone)" "${alone:-}")
done

row() { awk -v what="$1" -v s="$2" -v beside="$beside" 'BEGIN { printf "%-44s %9.3f %9.2f\n", what, s, s / beside }'; } # WHAT SECONDS

printf '%-44s %9s %9s\n' "$((accesses * 8)) accesses of a grain of 64 KiB" seconds 'of the 1st'
row "in a block, with $every processors" "$beside"
row "in a block, with 1 processor" "$by_turns"
row "outside of a block" "$alone"
for kind in together alone; do
    # the first entry makes the volume
    tail -n +2 "$room/history-$kind" | grep -v -e ' -> ok$' -e ' -> data ' | head -n 1
done
