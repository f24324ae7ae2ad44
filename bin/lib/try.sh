# shellcheck shell=bash disable=SC2154
# `try`: the program as it stands, compiled by the kit and run without a proof. It is sourced, not run, with `crate`,
# `say` and `meaning` defined.

# Runs the program unproved on its standard input. The status is the program's, or 1 where there was no answer.
try_program() { # WORD..
    local report last
    if ! has_kit; then
        say "there is no command rt to compile the program with (the Rattle kit isn't on the path)"
        return 1
    fi
    report=$(mktemp) || return 1
    say "not proved: the program is compiled as it stands and run, in about a minute"
    say "the output comes when it has ended; past 1 MiB, or 60 seconds of its own, there is none"
    (cd -- "$crate" && exec rt try -- "$@") 2>"$report"
    last=$(tail -n 1 -- "$report")
    if [[ $last =~ ^run=ended\ status=([0-9]+)( |$) ]]; then
        rm -f -- "$report"
        say "not proved: this was a run of the program without its proof"
        return "${BASH_REMATCH[1]}"
    fi
    say_no_answer "$last" "$report"
    rm -f -- "$report"
    return 1
}

# What rt try said in place of a status.
say_no_answer() { # LAST-LINE FILE
    case $1 in
        run=no-answer*)
            say "not proved, and no answer: the run took more than its 60 seconds, or printed more than 1 MiB. The proved program has neither bound"
            ;;
        run=fault*)
            say "not proved, and no answer: the run stopped at a fault of the program:"
            cat -- "$2" >&2
            ;;
        run=differ*)
            say "not proved, and no answer: two ways to run the program answered differently:"
            cat -- "$2" >&2
            ;;
        *)
            say "not proved, and no answer: the program couldn't be compiled or run:"
            tail -n 20 -- "$2" >&2
            ;;
    esac
}
