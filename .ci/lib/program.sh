# shellcheck shell=bash disable=SC2154
# What is checked of the built program: its words, drills, limits, and standard input and output that fail. It is
# sourced, not run, at the top of the repository, behind counting.sh.

# The words that are in the program's grammar, a line each.
good_words() {
    cat <<'END'
run
run --grain 64
run --grain 256
run --grain=64
run --grain=256
run --trace
run --trace --grain 64
run --grain 64 --trace
END
}

# Words that aren't.
bad_words() {
    cat <<'END'

Run
--
-- run
run --
run --grain
run --grain 128
run --grain 064
run --grain=
run --grain= 64
run --grain 64 --grain 64
run --grain=64 --grain=64
run --grain 64 64
run --grains 64
run -grain 64
run 64
run run
drill
drill x
drill -1
drill +7
drill 18446744073709551616
drill 000000000000000000007
drill 7 8
drill --grain 64 7
drill 7 --grain 64
Drill 7
--grain 64 run
--grain=64 run
run --grain 64 run
run --grain 64 --
run -- --grain 64
run --grain --grain 64
run --grain 64 --grain=256
run --grain=256 --grain 64
run --grain==64
run --grain=64=
run --grain=64,256
run --gra 64
run --gra=64
run --Grain 64
run -g 64
run -g64
run --grain 65
run --grain 640
run --grain 0256
run --grain +64
run --grain -64
run --grain=-64
run --grain 0x40
run --grain 64k
run --help
run -h
run --version
run -V
run -
run --trace=true
run --trace --trace
run --trace --grain 64 --trace
run --trace 64
run --cache 1
run --cache=1024
run --cache 1 --grain=64
run --grain=64 --cache 1
run --cache 0
run --cache 1025
run --cache 1 --trace
run drill 7
drill run
drill 7 run
drill 7 7
drill=7
drill --number 7
drill --number=7
drill -- 7
drill --help
drill 7.0
drill 0x7
drill 7e0
drill 1_000
drill 18446744073709551617
drill 99999999999999999999
drill 018446744073709551615
drill 000000000000000000000
check run
check check
check 1
check -
check --
check --trace
check --grain 64
check --help
checks
Check
stop
stop 0
stop 4294967296
stop 00000000004294967296
stop one
stop -- 1
stop 1 --grain 64
stop 1 1
help run
run help
drill help
END
}

# Words of one call each that a line of a table can't hold: empty ones, with blanks in them, and beyond ASCII.
odd_words() {
    usage_is_told ""
    usage_is_told "" run
    usage_is_told run ""
    usage_is_told run "" --grain 64
    usage_is_told run --grain ""
    usage_is_told run --grain 64 ""
    usage_is_told drill ""
    usage_is_told drill "" 7
    usage_is_told drill 7 ""
    usage_is_told "run "
    usage_is_told " run"
    usage_is_told $'run\n'
    usage_is_told "run --grain 64"
    usage_is_told run "--grain 64"
    usage_is_told run "--grain= 64"
    usage_is_told run --grain " 64"
    usage_is_told run --grain "64 "
    usage_is_told run --grain "64 256"
    usage_is_told "drill 7"
    usage_is_told drill " 7"
    usage_is_told drill "7 "
    usage_is_told drill $'7\n'
    usage_is_told drill $'\t7'
    usage_is_told drill "7 8"
    usage_is_told drill $'\xef\xbc\x97'
    usage_is_told check ""
    usage_is_told "check "
    usage_is_told run --grain $'\xef\xbc\x96\xef\xbc\x94'
    usage_is_told run $'\xe2\x80\x93-grain' 64
    usage_is_told $'r\xc3\xbcn'
    # words that aren't UTF-8
    usage_is_told $'\xff'
    usage_is_told $'run\xc3'
    usage_is_told run $'\xff'
    usage_is_told run $'--grain=64\x80'
    usage_is_told run --grain $'\xff64'
    usage_is_told run --grain 64 $'\xff'
    usage_is_told drill $'7\xff'
    usage_is_told drill $'\xc0\xb7'
}

# The words of a call are refused, and nothing is written.
usage_is_told() { # WORD...
    local shown
    printf -v shown '%q ' "$@"
    run_program "$@" <examples/first-volume
    is "words ${shown% }: status" 2 "$status"
    holds "words ${shown% }: something was written" wrote_nothing
}

# ---- the words of the program: what isn't in their grammar is usage, and nothing is read or written
words_of_program() {
    echo "== the program's words"
    local line words
    while IFS= read -r line; do
        read -ra words <<<"$line"
        run_program "${words[@]}" <examples/first-volume
        is "words '$line': status" 0 "$status"
    done < <(good_words)
    while IFS= read -r line; do
        read -ra words <<<"$line"
        run_program ${words[@]+"${words[@]}"} <examples/first-volume
        is "words '$line': status" 2 "$status"
        holds "words '$line': something was written" wrote_nothing
    done < <(bad_words; printf '%s\n' --help --version -h help show build "run --summary" "try")
    odd_words
    # a session is no trace
    run_program check <examples/first-volume
    is "words 'check': status" 9 "$status"
    is "words 'check'" "malformed 0" "$(<"$room/out")"
    # usage reads nothing
    { "$program" walk; cat; } <examples/first-volume >"$room/out" 2>"$room/err"
    holds "usage took bytes of its input" cmp -s "$room/out" examples/first-volume
}

# ---- drills: a summary in one line, and nothing of the input is read
drills() {
    echo "== drills"
    local seventh="entries 8829 reads 1550 writes 2039 moves 3308 refused 610 sum 2149241344"
    run_program drill 7 <examples/first-volume
    is "drill 7: status" 0 "$status"
    is "drill 7" "$seventh" "$(<"$room/out")"
    holds "drill 7: not one line" wrote_lines 1
    holds "something was written to standard error" complained_of_nothing

    local number
    for number in 0 18446744073709551615 00000000000000000000; do
        run_program drill "$number" <examples/first-volume
        is "drill $number: status" 0 "$status"
        holds "drill $number: not one line" wrote_lines 1
    done

    # 20 digits are a number, of which the first may be zeros
    run_program drill 00000000000000000007 <examples/first-volume
    is "drill 00000000000000000007: status" 0 "$status"
    is "drill 00000000000000000007" "$seventh" "$(<"$room/out")"

    { "$program" drill 7 >/dev/null; cat; } <examples/first-volume >"$room/out" 2>"$room/err"
    holds "a drill took bytes of its input" cmp -s "$room/out" examples/first-volume
}

# ---- limits: the input, the entries of the history, and the grains of all volumes
newlines() { head -c "$1" /dev/zero | tr '\0' '\n'; }
one_line() { head -c "$1" /dev/zero | tr '\0' 'x'; }
accesses() { awk -v n="$1" 'BEGIN { print "mkvdisk -name A -size 1"; for (i = 0; i < n; i++) print "read A 0 1" }'; }

limits_of_input() {
    echo "== limits of the input"
    run_program run --grain 64 < <(newlines 67108864)
    is "67,108,864 newlines: status" 0 "$status"
    holds "67,108,864 newlines: something was written" wrote_nothing

    run_program run --grain 64 < <(newlines 67108865)
    is "67,108,865 newlines: status" 7 "$status"
    holds "67,108,865 newlines: something was written" wrote_nothing

    run_program run --grain 64 < <(one_line 67108864)
    is "a line of 67,108,864 bytes without a newline: status" 0 "$status"
    is "a line of 67,108,864 bytes without a newline" "0 main - -> refused long line" "$(head -c 1000 "$room/out")"
    holds "a line of 67,108,864 bytes without a newline: not one entry" wrote_lines 1

    run_program run --grain 64 < <(one_line 67108865)
    is "a line of 67,108,865 bytes: status" 7 "$status"
    holds "a line of 67,108,865 bytes: something was written" wrote_nothing
}

# Behind a volume and so many reads a preset ends with this status, and the history is full with this entry.
preset_at_limit() { # READS STATUS ENTRY
    run_program run --grain 64 < <(accesses "$1"; echo "mkpreset -source A -preset snapshot")
    is "a preset behind $1 reads: status" "$2" "$status"
    holds "a preset behind $1 reads: not 262,144 lines" wrote_lines 262144
    is "the last entry of a preset behind $1 reads" "262143 main $3" "$(tail -n 1 "$room/out")"
}

limits_of_history() {
    echo "== limits of the history"
    run_program run --grain 64 < <(accesses 262143)
    is "262,143 reads of a volume: status" 0 "$status"
    holds "262,143 reads of a volume: not 262,144 lines" wrote_lines 262144

    run_program run --grain 64 < <(accesses 262144)
    is "262,144 reads of a volume: status" 6 "$status"
    holds "262,144 reads of a volume: not 262,144 lines" wrote_lines 262144
    is "the last entry of a full history" "262143 main read 0 0 1 -> data 512*00" "$(tail -n 1 "$room/out")"
    holds "something was written to standard error" complained_of_nothing

    # a preset that meets the limit behind its first line, and behind its second, and one that doesn't: what was made stays
    preset_at_limit 262142 6 "mkvdisk -size 1024 -unit kb -thin -> Virtual Disk, id [1], successfully created"
    preset_at_limit 262141 6 \
        "mkfcmap -source A -target 1 -copyrate 0 -cleanrate 0 -> FlashCopy Mapping, id [0], successfully created"
    preset_at_limit 262140 0 "startfcmap -prep 0 -> ok"

    # a copy of 32 grains a second that meets the limit in its second second: what was made stays
    run_program run --grain 64 < <(
        printf '%s\n' "mkvdisk -name A -size 4" "mkvdisk -name B -size 4" "mkfcmap -source A -target B" "startfcmap -prep 0"
        awk 'BEGIN { for (i = 0; i < 262097; i++) print "read A 0 1" }'
        echo "advance -seconds 3"
    )
    is "seconds that meet the limit: status" 6 "$status"
    holds "seconds that meet the limit: not 262,144 lines" wrote_lines 262144
    is "the entry of the seconds" "262101 main advance -seconds 3 -> ok" "$(tail -n 43 "$room/out" | head -n 1)"
    is "the last entry of the seconds" "262143 main copy 0 41 -> moved 0 41" "$(tail -n 1 "$room/out")"
}

limits_of_volumes() {
    echo "== limits of volumes"
    # 8,192 grains, all that volumes may have together
    run_program run --grain 64 < <(printf '%s\n' "mkvdisk -size 512" "mkvdisk -size 64 -unit kb" "mkvdisk -size 100 -unit kb")
    is "8,192 grains and more: status" 0 "$status"
    is "8,192 grains and more" "0 main mkvdisk -size 512 -> Virtual Disk, id [0], successfully created
1 main mkvdisk -size 64 -unit kb -> refused limit 8192
2 main mkvdisk -size 100 -unit kb -> refused bad value of size" "$(<"$room/out")"
}

# ---- want of memory: a line of 64 MiB is collected whole, and 64 MiB are all that there is, for it and for the program
want_of_memory() {
    echo "== want of memory"
    (
        ulimit -v 65536 || exit 99
        exec timeout "$most_seconds" "$program" run --grain 64 >"$room/out" 2>"$room/err"
    ) < <(one_line 67108864)
    is "a line that there is no memory for: status" 5 $?
    holds "a line that there is no memory for: something was written" wrote_nothing
}

# ---- standard input and output that fail
failing_streams() {
    echo "== standard input and output that fail"
    # a folder can be opened and not read
    run_program run --grain 64 <"$room"
    is "standard input that fails: status" 3 "$status"
    holds "standard input that fails: something was written" wrote_nothing
    if [[ -c /dev/full && -w /dev/full ]]; then
        timeout "$most_seconds" "$program" run --grain 64 <examples/first-volume >/dev/full 2>"$room/err"
        is "standard output that fails: status" 4 $?
        timeout "$most_seconds" "$program" drill 7 </dev/null >/dev/full 2>"$room/err"
        is "standard output that fails in a drill: status" 4 $?
    else
        fail "there is no /dev/full, so standard output that fails couldn't be tried"
    fi
}

# ---- a session that is typed: each answer is there before the next line is, and those of a block when its end is
typed_session() {
    echo "== a session that is typed"
    local lines=("mkvdisk -name A -size 1" "write A 0 1 5a" "# a comment" "read A 0 2" "read B 0 1"
        together "actor h host" "write A 0 1 77" end "read A 0 1")
    local answers=("0 main mkvdisk -name A -size 1 -> Virtual Disk, id [0], successfully created" "1 main write 0 0 1 5a -> ok" ""
        "2 main read 0 0 2 -> data 512*5a,512*00" "3 main read B 0 1 -> refused no such vdisk"
        "" "" "" "4 h write 0 0 1 77 -> ok" "5 main read 0 0 1 -> data 512*77")
    local line=0 answer input pid
    coproc typed { exec timeout "$most_seconds" "$program" run --grain 64 2>"$room/err"; }
    # these names go with the program's end
    input=${typed[1]}
    pid=$typed_PID
    for ((line = 0; line < ${#lines[@]}; line++)); do
        printf '%s\n' "${lines[line]}" >&"$input"
        [[ -n ${answers[line]} ]] || continue
        answer=
        IFS= read -r -t 20 answer <&"${typed[0]}"
        is "the answer to '${lines[line]}', typed" "${answers[line]}" "$answer"
    done
    exec {input}>&-
    wait "$pid"
    is "a session that is typed: status" 0 $?
    holds "a session that is typed: it complained" complained_of_nothing
}

# ---- the script over the proved program: it runs it, hands its status on, and says in a line what it means
script_and_program() {
    echo "== bin/flashcopy over the proved program"
    bin/flashcopy run --grain 64 <examples/first-volume >"$room/out" 2>"$room/err"
    is "bin/flashcopy on examples/first-volume: status" 0 $?
    holds "bin/flashcopy on examples/first-volume: the output differs" cmp -s "$room/out" examples/first-volume.stdout
    holds "bin/flashcopy on examples/first-volume: it complained" complained_of_nothing

    (cd / && "$top/bin/flashcopy" run --grain 64 "$top/examples/two-grains" >"$room/out" 2>"$room/err")
    is "bin/flashcopy from another folder: status" 0 $?
    holds "bin/flashcopy from another folder: the output differs" cmp -s "$room/out" examples/two-grains.stdout
    holds "bin/flashcopy --version doesn't name the kit at hand" grep -qF -- "$(rt version)" <(bin/flashcopy --version)
}
