# shellcheck shell=bash
# The words of bin/flashcopy: their grammar, the usage text, and the meaning of a status. It is sourced, not run,
# with `here` set to the top of the repository. What it sets is used by the other files.
# shellcheck disable=SC2034,SC2154

usage() {
    cat <<'END'
usage: flashcopy show [EXAMPLE]                a session beside the history that it must print, at once
       flashcopy try [OPTION].. [SESSION]      runs a session with the program as it stands, unproved: about a minute
       flashcopy run [OPTION].. [SESSION]      runs a session with the proved program, and proves and builds it first
       flashcopy drill N                       the generated session of a number below 2^64, a summary of its history
       flashcopy check [TRACE]                 whether each entry of a trace is right, and answers the session behind it, if
                                               there is one: its verdict, in one line
       flashcopy stop K [SESSION]              runs a session whose disk of metadata fails at its write or sync K, from 1 to
                                               4294967295, and prints what is recovered then (docs/MANUAL.md)
       flashcopy build                         proves and builds the program, and runs nothing
       flashcopy help, -h, --help              this text
       flashcopy --version                     the version, and the kit that the program was proved and built with

A session is a list of lines: an administrator's commands, and reads and writes of hosts. Each is answered by
an entry of the history, or by one for each grain that it touches. Lines between `together` and `end` are those
of several actors at once. SESSION is a file; without it the session comes from standard input, and so does a TRACE.

    mkvdisk -name A -size 1
    write A 0 1 5a
    read A 0 2

options of run and try:
  --grain 64, --grain 256   grains of so many KiB (256 unless given); also --grain=64, --grain=256
  --trace                   the history as a trace, which says of each entry all that it did (docs/TRACE.md);
                            not with the options below
  --summary                 on standard error, behind the history: its entries, and how many are refused, unread
                            and disk faults
  --explain                 on standard error: each refused line with its number, the word that it is about, and
                            a sentence on what to do
  --strict                  status 10 where a line was refused or couldn't be read

docs/MANUAL.md has every line and every answer, and what a summary counts.

exit status:
   0  the input was read to its end, and every line was answered
   1  there is no built program, or try gave no answer (said by this script alone)
   2  the words above weren't kept to; nothing was read
   3  standard input failed; the lines that had ended were answered
   4  standard output failed; it got a front of what was to be printed
   5  memory was wanted and not had
   6  the history is full, at 262,144 entries, and a line asks for more
   7  the input has more than 67,108,864 bytes; the lines that ended before were answered
   8  the input ended inside a block, which wasn't run; every line before it was answered
   9  an entry of the trace that was checked isn't right, or doesn't answer its session, or a line of that is left, or
      the input is no trace
  10  with --strict: all lines were answered, and one or more was refused or couldn't be read
END
    # what the program itself says of its words, where a crate prints that
    local recorded=$here/crates/args_help/stdout
    if [[ -f $recorded ]]; then
        printf '\nthe words of the program itself, without this script:\n\n'
        cat -- "$recorded"
    fi
}

# The status of --strict, which is none of the program's.
strict_status=10

# A status of a check in words, where they are its own.
meaning_of_check() { # STATUS
    case $1 in
        3) echo "standard input failed; nothing is said of the trace" ;;
        6) echo "something that is no session stands behind entry 262,144; nothing is said of the trace" ;;
        7) echo "the input has more than 67,108,864 bytes; nothing is said of the trace" ;;
        9) echo "an entry of the trace isn't right or doesn't answer its session, or a line is left, or the input is no trace" ;;
        *) return 1 ;;
    esac
}

# A status in words, in one line.
meaning() { # STATUS
    if [[ $task == check ]] && meaning_of_check "$1"; then return; fi
    case $1 in
        1) echo "the program ended with a status that it doesn't have" ;;
        2) echo "usage: flashcopy run [--grain 64|256] [--trace] [SESSION], drill N, check [TRACE] or stop K [SESSION] (see --help)" ;;
        3) echo "standard input failed; the lines that had ended were answered" ;;
        4) echo "standard output failed; it got a front of what was to be printed" ;;
        5) echo "memory was wanted and not had" ;;
        6) echo "the history is full, at 262,144 entries, and a line asks for more" ;;
        7) echo "the input has more than 67,108,864 bytes; the lines that ended before were answered" ;;
        8) echo "the input ended inside a block, which wasn't run" ;;
        "$strict_status") echo "a line was refused or couldn't be read (see --explain)" ;;
        *)
            if (($1 > 128)); then
                echo "the program was ended by signal $(($1 - 128))"
            else
                echo "the program ended with a status that it doesn't have"
            fi
            ;;
    esac
}

# Reads the words, and refuses what isn't in their grammar before anything is built or read. Sets
#   task        run, try, drill, check, stop, show, build, help or version
#   words       the words that the program gets
#   grain       64 or 256
#   session     the file of the session or trace, or nothing for standard input
#   example     the example to show, or nothing for the list
#   wants_summary, wants_explain, is_strict   0 or 1
read_words() { # WORD..
    task='' words=() grain=256 session='' example=''
    wants_summary=0 wants_explain=0 is_strict=0
    (($# > 0)) || return 1
    task=$1
    shift
    case $task in
        -h | --help | help) task='help' && (($# == 0)) ;;
        --version) task=version && (($# == 0)) ;;
        build) (($# == 0)) ;;
        show) read_show_words "$@" ;;
        drill) read_drill_words "$@" ;;
        check) read_check_words "$@" ;;
        stop) read_stop_words "$@" ;;
        run | try) read_run_words "$@" ;;
        *) return 1 ;;
    esac
}

read_show_words() { # [EXAMPLE]
    (($# <= 1)) || return 1
    (($# == 0)) || [[ $1 =~ ^[a-z0-9][a-z0-9-]*$ ]] || return 1
    example=${1-}
}

# Whether a word is a number of 1 to 20 digits that isn't greater than another of 20.
is_number_to() { # GREATEST WORD
    local number
    [[ $2 =~ ^[0-9]{1,20}$ ]] || return 1
    number=00000000000000000000$2
    number=${number: -20}
    # of as many digits each, the order of the texts is that of the numbers
    printf '%s\n' "$number" "$1" | LC_ALL=C sort -c 2>/dev/null
}

# A number below 2^64.
read_drill_words() { # N
    (($# == 1)) && is_number_to 18446744073709551615 "$1" || return 1
    words=(drill "$1")
}

# A number from 1 to below 2^32, and the session.
read_stop_words() { # K [SESSION]
    (($# == 1 || $# == 2)) && is_number_to 00000000004294967295 "$1" && [[ ! $1 =~ ^0+$ ]] || return 1
    (($# == 1)) || [[ -n $2 && $2 != -* ]] || return 1
    session=${2-}
    words=(stop "$1")
}

read_check_words() { # [TRACE]
    (($# <= 1)) || return 1
    (($# == 0)) || [[ -n $1 && $1 != -* ]] || return 1
    session=${1-}
    words=(check)
}

read_run_words() { # [OPTION].. [SESSION]
    local has_grain=0 has_session=0 has_trace=0
    words=(run)
    while (($# > 0)); do
        case $1 in
            --grain | --grain=*)
                ((has_grain == 0)) || return 1
                has_grain=1
                if [[ $1 == --grain ]]; then
                    (($# > 1)) || return 1
                    shift
                    grain=$1
                else
                    grain=${1#--grain=}
                fi
                [[ $grain == 64 || $grain == 256 ]] || return 1
                words+=(--grain "$grain")
                ;;
            --trace)
                ((has_trace++ == 0)) || return 1
                words+=(--trace)
                ;;
            --summary) ((wants_summary++ == 0)) || return 1 ;;
            --explain) ((wants_explain++ == 0)) || return 1 ;;
            --strict) ((is_strict++ == 0)) || return 1 ;;
            '' | -*) return 1 ;;
            *)
                ((has_session == 0)) || return 1
                has_session=1 session=$1
                ;;
        esac
        shift
    done
    # what is said afterwards is made of the history's text
    ((has_trace == 0 || wants_summary + wants_explain + is_strict == 0))
}
