#!/bin/bash
# Times drills: generated sessions of 5,016 lines over eight volumes and eight mappings. Beside each stands the time that copying
# one grain of 64 KiB for each of its calls of disks takes. It prints a table and judges nothing.
#
#     bench/drill.sh [NUMBER..]
. "$(dirname -- "$(readlink -f -- "${BASH_SOURCE[0]}")")/common.sh"
build_program

# The generated session of a number, from which its calls of disks are counted.
state=0 picked=0
pick() { # K
    state=$((state * 6364136223846793005 + 1442695040888963407))
    picked=$((((state >> 33) & 0x7fffffff) % $1))
}

blocks() { # sets volume, block and count
    pick 8 && volume=$picked
    pick 2048 && block=$picked
    pick 64 && count=$((1 + picked < 2048 - block ? 1 + picked : 2048 - block))
}

session() { # NUMBER
    local v pair kind options=("" "-force " "-split ")
    state=$1
    for v in 0 1 2 3 4 5 6 7; do echo "mkvdisk -name V$v -size 1"; done
    for pair in "0 1 -incremental" "0 2" "1 3 -copyrate 0" "3 4" "4 5 -copyrate 10" "1 0" "6 7 -incremental" "2 6"; do
        echo "mkfcmap -source V${pair:0:1} -target V${pair:2}"
    done
    for ((v = 0; v < 5000; v++)); do
        pick 10 && kind=$picked
        case $kind in
        0 | 1 | 2 | 3) blocks && pick 256 && printf 'write V%d %d %d %02x\n' "$volume" "$block" "$count" "$picked" ;;
        4 | 5 | 6) blocks && echo "read V$volume $block $count" ;;
        7) pick 8 && echo "startfcmap -prep -restore $picked" ;;
        8) pick 3 && kind=$picked && pick 8 && echo "stopfcmap ${options[kind]}$picked" ;;
        9) pick 3 && echo "advance -seconds $((1 + picked))" ;;
        esac
    done
}

printf '%-12s %9s %9s %10s %9s %9s\n' shape seconds MiB calls copies ratio
for number in "${@:-5}"; do
    session "$number" >"$room/session"
    calls=$(disk_calls "$room/session" 64)
    read -r seconds memory < <(timed /dev/null drill "$number")
    awk -v s="drill $number" -v t="$seconds" -v m="$memory" -v c="$calls" -v k="$(copies "$calls" 64)" \
        'BEGIN { printf "%-12s %9.3f %9d %10d %9.3f %9.2f\n", s, t, m, c, k, t / (k > 0 ? k : 0.001) }'
done
