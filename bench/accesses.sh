#!/bin/bash
# Times 262,000 accesses, each inside one grain, over one volume in the built program, beside the time that copying one
# grain of 64 KiB for each call of a disk takes. It prints a small table and judges nothing.
#
#     bench/accesses.sh [ROUNDS]
#
# The accesses are writes and reads in turn, of 1 to 8 blocks, spread over a volume of 64 grains. A read is one call of
# a disk; a write of a part of a grain is two, since the rest of the grain is read first. The program also reads the
# session, keeps the history and prints it, and the copies do none of this. Of the rounds (3, unless told otherwise)
# the fastest of each kind is told.
set -eu

top=$(cd -- "$(dirname -- "$(readlink -f -- "${BASH_SOURCE[0]}")")/.." && pwd)
program=$top/crates/flashcopy/out/flashcopy
rounds=${1:-3}
accesses=262000

# builds the program, if that wasn't done yet
"$top/bin/flashcopy" run </dev/null
room=$(mktemp -d)
trap 'rm -rf -- "$room"' EXIT

awk -v n="$accesses" 'BEGIN {
    print "mkvdisk -name A -size 4"
    state = 12345
    for (i = 0; i < n; i++) {
        state = (state * 16807) % 2147483647
        grain = int(state / 65536) % 64
        count = 1 + int(state / 4096) % 8
        first = int(state / 1024) % (129 - count)
        if (i % 2 == 0) printf "write A %d %d %02x\n", grain * 128 + first, count, i % 256
        else            printf "read A %d %d\n", grain * 128 + first, count
    }
}' >"$room/session"

# Copies the grains that the accesses touch: a read copies one out of the volume, a write one out and one back.
cat >"$room/copies.c" <<'END'
#include <stdio.h>
#include <stdlib.h>
#include <string.h>
#include <time.h>

enum { GRAIN = 65536, GRAINS = 64, BLOCKS = 128 };

int main(int argc, char **argv) {
    FILE *session = argc == 2 ? fopen(argv[1], "r") : NULL;
    char *volume = calloc(GRAINS, GRAIN), *grain = calloc(1, GRAIN), line[128];
    unsigned char *places = malloc(1 << 20);
    long calls = 0, count = 0;
    if (!session || !volume || !grain || !places) return 1;
    while (fgets(line, sizeof line, session)) {
        unsigned block;
        if (sscanf(line, "write A %u", &block) == 1) places[count++] = 128 | block / BLOCKS;
        else if (sscanf(line, "read A %u", &block) == 1) places[count++] = block / BLOCKS;
    }
    struct timespec from, to;
    clock_gettime(CLOCK_MONOTONIC, &from);
    for (long i = 0; i < count; i++) {
        char *place = volume + (long)(places[i] & 127) * GRAIN;
        memcpy(grain, place, GRAIN);
        __asm__ volatile("" : : "r"(grain) : "memory");
        calls++;
        if (places[i] & 128) {
            grain[i % GRAIN] = (char)i;
            memcpy(place, grain, GRAIN);
            __asm__ volatile("" : : "r"(place) : "memory");
            calls++;
        }
    }
    clock_gettime(CLOCK_MONOTONIC, &to);
    printf("%.3f %ld\n", (double)(to.tv_sec - from.tv_sec) + (double)(to.tv_nsec - from.tv_nsec) / 1e9, calls);
    return 0;
}
END
"${CC:-cc}" -O2 -o "$room/copies" "$room/copies.c"

fastest_run=
fastest_copies=
calls=0
for ((round = 0; round < rounds; round++)); do
    from=$(date +%s.%N)
    "$program" run --grain 64 <"$room/session" >"$room/history"
    to=$(date +%s.%N)
    run=$(awk -v a="$from" -v b="$to" 'BEGIN { printf "%.3f", b - a }')
    read -r copies calls < <("$room/copies" "$room/session")
    fastest_run=$(printf '%s\n' "$run" ${fastest_run:+"$fastest_run"} | sort -n | head -n 1)
    fastest_copies=$(printf '%s\n' "$copies" ${fastest_copies:+"$fastest_copies"} | sort -n | head -n 1)
done

awk -v n="$accesses" -v c="$calls" -v r="$fastest_run" -v k="$fastest_copies" \
    -v in_bytes="$(wc -c <"$room/session")" -v out_bytes="$(wc -c <"$room/history")" \
    -v bad="$(grep -cv -e ' -> ok$' -e ' -> data ' "$room/history")" 'BEGIN {
    printf "%-38s %9s %14s\n", "", "seconds", "microseconds"
    printf "%-38s %9.3f %14.2f\n", n " accesses, by the program", r, r / n * 1e6
    printf "%-38s %9.3f %14.2f\n", c " copies of a grain of 64 KiB", k, k / n * 1e6
    printf "%-38s %9.2f\n", "the one over the other", r / (k > 0 ? k : 0.001)
    printf "microseconds are for each access; %.1f MB were read and %.1f MB printed\n", in_bytes / 1e6, out_bytes / 1e6
    if (bad != 1) printf "%d entries are neither done nor data\n", bad - 1
}'
