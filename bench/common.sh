# shellcheck shell=bash
# What the benchmarks share. It is sourced, not run.
#
# Sets top, program (the built one, or what PROGRAM names) and room (a folder that goes at the end), and has:
#   have_program           builds the program, if there is none and PROGRAM names none
#   build_program          does so, and builds what times it; it comes before the next three
#   timed SESSION WORD..   runs the program on a session, puts its history into $room/history, and prints the seconds that
#                          passed and the peak memory in MiB
#   copies CALLS KIB       prints the seconds that so many calls take when each copies a grain of so many KiB
#   disk_calls SESSION GRAIN   prints how many calls of disks the entries of a session tell
#   copies_read_and_written SHAPE COUNT    prints a session of so many accesses over nine volumes of 64 grains of 64 KiB, in a
#                          `cascade` of eight targets or a `fan` of eight targets of one source
#   build_bench CRATE WORD..   proves and builds the program of such a crate, if that wasn't done yet, and runs it once with these words
#   best_by_turns WORD.. -- WORD..   prints the fewest nanoseconds of each of two commands, in three runs made by turns
#   lesser NUMBER [NUMBER]     prints the lesser of two numbers, of which the second may be none
set -eu

top=$(cd -- "$(dirname -- "$(readlink -f -- "${BASH_SOURCE[0]}")")/.." && pwd)
program=${PROGRAM:-$top/crates/flashcopy/out/flashcopy}
product_runs=$top/crates/product_runs/out/product_runs
room=$(mktemp -d)
trap 'rm -rf -- "$room"' EXIT

have_program() {
    if [[ -z ${PROGRAM-} ]]; then "$top/bin/flashcopy" run </dev/null; fi
}

build_program() {
    have_program
    compile timed <<'END'
#include <stdio.h>
#include <sys/resource.h>
#include <sys/wait.h>
#include <time.h>
#include <unistd.h>

int main(int argc, char **argv) {
    struct timespec from, to;
    struct rusage used;
    int status;
    if (argc < 2) return 1;
    clock_gettime(CLOCK_MONOTONIC, &from);
    pid_t child = fork();
    if (child == 0) {
        execv(argv[1], argv + 1);
        _exit(127);
    }
    if (child < 0 || wait4(child, &status, 0, &used) < 0) return 1;
    clock_gettime(CLOCK_MONOTONIC, &to);
    fprintf(stderr, "%.3f %.0f\n",
            (double)(to.tv_sec - from.tv_sec) + (double)(to.tv_nsec - from.tv_nsec) / 1e9, used.ru_maxrss / 1024.0);
    return 0;
}
END
    compile copies <<'END'
#include <stdio.h>
#include <stdlib.h>
#include <string.h>
#include <time.h>

int main(int argc, char **argv) {
    if (argc != 3) return 1;
    long calls = atol(argv[1]), bytes = atol(argv[2]) * 1024, grains = (576L * 65536) / bytes;
    char *disks = calloc(grains, bytes), *grain = calloc(1, bytes);
    struct timespec from, to;
    unsigned long place = 12345;
    if (!disks || !grain) return 1;
    memset(disks, 1, grains * bytes);
    clock_gettime(CLOCK_MONOTONIC, &from);
    for (long i = 0; i < calls; i++) {
        place = (place * 16807) % 2147483647;
        memcpy(grain, disks + (long)(place % grains) * bytes, bytes);
        __asm__ volatile("" : : "r"(grain) : "memory");
    }
    clock_gettime(CLOCK_MONOTONIC, &to);
    printf("%.3f\n", (double)(to.tv_sec - from.tv_sec) + (double)(to.tv_nsec - from.tv_nsec) / 1e9);
    return 0;
}
END
}

compile() { # NAME, and the C source of standard input
    cat >"$room/$1.c"
    "${CC:-cc}" -O2 -o "$room/$1" "$room/$1.c"
}

timed() { # SESSION WORD..
    local session=$1
    shift
    "$room/timed" "$program" "$@" <"$session" 2>&1 >"$room/history"
}

copies() { "$room/copies" "$1" "$2"; } # CALLS KIB

disk_calls() { # SESSION GRAIN
    { echo "== session $2 4096"; cat "$1"; } | "$product_runs" traces | awk '$1 == "+" && $2 == "calls" { n += $3 } END { print n + 0 }'
}

# The source of target k is the volume before it, or the first. Writes and reads come in turn, each inside one grain.
copies_read_and_written() { # SHAPE COUNT
    awk -v shape="$1" -v n="$2" 'BEGIN {
        for (v = 0; v < 9; v++) print "mkvdisk -name V" v " -size 4"
        for (v = 1; v < 9; v++) print "mkfcmap -source V" (shape == "cascade" ? v - 1 : 0) " -target V" v " -copyrate 0"
        for (v = 1; v < 9; v++) print "startfcmap -prep " v - 1
        state = 12345
        for (i = 0; i < n; i++) {
            state = (state * 16807) % 2147483647
            volume = int(state / 8388608) % 9
            grain = int(state / 65536) % 64
            count = 1 + int(state / 4096) % 8
            first = int(state / 1024) % (129 - count)
            if (i % 2 == 0) printf "write V%d %d %d %02x\n", volume, grain * 128 + first, count, i % 256
            else            printf "read V%d %d %d\n", volume, grain * 128 + first, count
        }
    }'
}

build_bench() { # CRATE WORD..
    (cd -- "$top/crates/$1" && rt run -- "${@:2}" </dev/null >/dev/null 2>&1) ||
        { echo "$1 isn't proved or doesn't build: run rt run in crates/$1" >&2; exit 1; }
}

best_by_turns() { # WORD.. -- WORD..
    local first=() best_first='' best_second=''
    while [[ $1 != -- ]]; do
        first+=("$1")
        shift
    done
    shift
    for _ in 1 2 3; do
        best_first=$(lesser "$(nanoseconds "${first[@]}")" "$best_first")
        best_second=$(lesser "$(nanoseconds "$@")" "$best_second")
    done
    echo "$best_first $best_second"
}

nanoseconds() { # WORD..
    local from to
    from=$(date +%s%N)
    "$@" >/dev/null || echo "$1 failed" >&2
    to=$(date +%s%N)
    echo $((to - from))
}

lesser() { printf '%s\n' "$1" ${2:+"$2"} | sort -g | head -n 1; } # NUMBER [NUMBER]
