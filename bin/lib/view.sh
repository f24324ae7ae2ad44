# shellcheck shell=bash
# The words of bin/fcview, the meaning of a status, and the files that drawings as SVG are put into. It is sourced, not run,
# with `here` set to the top of the repository, and `program`, `say` and `try_program` of the files beside it. What it sets is
# used by them.
# shellcheck disable=SC2034,SC2154

view_usage() {
    cat <<'END'
usage: fcview [--at N] [--svg FOLDER] [TRACE]      draws with the proved program, and proves and builds it first
       fcview try [--at N] [--svg FOLDER] [TRACE]  draws with the program as it stands, unproved: about a minute
       fcview build                                proves and builds the program, and draws nothing
       fcview help, -h, --help                     this text
       fcview --version                            the version, and the kit that the program was proved and built with

A trace is what `flashcopy run --trace` prints (docs/TRACE.md). Behind each entry that changed them stand the chains of copies, behind
each read why it gave its bytes, and of each move from whom to whom it went. TRACE is a file; without it the trace comes from standard
input. A line `session` and what follows it aren't looked at.

    bin/flashcopy run --trace --grain 64 examples/cascade | bin/fcview --at 11

options:
  --at N          entry N alone, with the chains after it; also --at=N
  --svg FOLDER    each drawing of chains as SVG, in a file entry-N.svg of the folder, which is made where it isn't there; what
                  stands at the end in sums.txt, or where the trace isn't right in end.txt

docs/MANUAL.md has every line of a drawing.

exit status:
   0  all entries of the trace are right
   1  there is no built program, or try gave no answer (said by this script alone)
   2  the words above weren't kept to; nothing was read
   3  standard input failed; nothing is drawn
   4  standard output or a file failed; a front of what was to be drawn is there
   5  memory was wanted and not had
   6  something that is no session stands behind entry 262,144; the entries before it are drawn
   7  the input has more than 67,108,864 bytes; nothing is drawn
   9  an entry of the trace isn't right, or the input is no trace; the entries before it are drawn
END
}

# A status in words, in one line.
meaning_of_view() { # STATUS
    case $1 in
        2) echo "usage: fcview [--at N] [--svg FOLDER] [TRACE] (see --help)" ;;
        3) echo "standard input failed; nothing is drawn" ;;
        4) echo "standard output or a file failed; a front of what was to be drawn is there" ;;
        5) echo "memory was wanted and not had" ;;
        6) echo "something that is no session stands behind entry 262,144; the entries before it are drawn" ;;
        7) echo "the input has more than 67,108,864 bytes; nothing is drawn" ;;
        9) echo "an entry of the trace isn't right, or the input is no trace; the entries before it are drawn" ;;
        *)
            if (($1 > 128)); then
                echo "the program was ended by signal $(($1 - 128))"
            else
                echo "the program ended with a status that it doesn't have"
            fi
            ;;
    esac
}

# Reads the words, and refuses what isn't in their grammar before anything is built or read. Sets
#   task    view, try, build, help or version
#   words   the words that the program gets
#   folder  the folder of the drawings as SVG, or nothing where they are text
#   trace   the file of the trace, or nothing for standard input
read_view_words() { # WORD..
    task=view words=() folder='' trace=''
    case ${1-} in
        -h | --help | help) task='help' && (($# == 1)) ;;
        --version) task=version && (($# == 1)) ;;
        build) task=build && (($# == 1)) ;;
        try)
            task=try
            shift
            read_drawing_words "$@"
            ;;
        *) read_drawing_words "$@" ;;
    esac
}

# A number of 1 to 20 digits below 2^64.
is_entry_number() { # WORD
    local greatest=18446744073709551615 number
    [[ $1 =~ ^[0-9]{1,20}$ ]] || return 1
    number=00000000000000000000$1
    # of as many digits each, the order of the texts is that of the numbers
    printf '%s\n' "${number: -20}" "$greatest" | LC_ALL=C sort -c 2>/dev/null
}

read_drawing_words() { # [OPTION].. [TRACE]
    local has_at=0 has_trace=0
    while (($# > 0)); do
        case $1 in
            --at | --at=*)
                ((has_at++ == 0)) || return 1
                if [[ $1 == --at ]]; then
                    (($# > 1)) || return 1
                    shift
                fi
                is_entry_number "${1#--at=}" || return 1
                words+=(--at "${1#--at=}")
                ;;
            --svg)
                [[ -z $folder ]] && (($# > 1)) && [[ -n $2 && $2 != -* ]] || return 1
                folder=$2
                words+=(--svg)
                shift
                ;;
            '' | -*) return 1 ;;
            *)
                ((has_trace++ == 0)) || return 1
                trace=$1
                ;;
        esac
        shift
    done
}

# The program's own run on standard input: the proved one, or unproved.
run_viewer() {
    if [[ $task == try ]]; then
        try_program ${words[@]+"${words[@]}"}
    else
        "$program" ${words[@]+"${words[@]}"}
    fi
}

# Puts what stands behind each line `== NAME` into the file of that name in the folder; what stands before the first such line goes to
# standard output.
put_into_files() { # FOLDER
    LC_ALL=C awk -v folder="$1" '
        /^== [a-z]+(-[0-9]+)?[.](svg|txt)$/ {
            if (file != "" && close(file) != 0) failed = 1
            file = folder "/" $2
            printf "" >file
            next
        }
        file == "" { print; next }
        { print >file }
        END {
            if (file != "" && close(file) != 0) failed = 1
            exit failed ? 4 : 0
        }
    '
}

# Draws, and says in a line what a status other than 0 means. Of a try without an answer that is said already.
draw_trace() {
    local status
    if [[ -n $folder ]]; then
        run_viewer | put_into_files "$folder"
        status=("${PIPESTATUS[@]}")
        ((status[1] == 0)) || status[0]=4
    else
        run_viewer
        status=$?
    fi
    ((status == 0)) || [[ $task == try && $status == 1 ]] || say "$(meaning_of_view "$status")"
    return "$status"
}
