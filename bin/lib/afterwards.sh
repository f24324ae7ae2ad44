# shellcheck shell=bash disable=SC2154
# A session's run, and what is said afterwards on standard error: --summary, --explain and --strict. It is sourced, not
# run, with `here`, `program`, `say`, `meaning`, `try_program` and the settings of read_words.

# The words' own run: by the proved program, or unproved.
run_words() {
    if [[ $task == try ]]; then
        try_program "${words[@]}"
    else
        "$program" "${words[@]}"
    fi
}

# At a terminal: how to end what is typed.
say_how_to_end() {
    [[ -t 0 ]] || return 0
    say "type the lines of a session; each is answered as it ends. Ctrl-D at the beginning of a line ends the session"
}

# Says in a line what a status other than 0 means. Of a try without an answer that is said already.
say_status() { # STATUS
    (($1 == 0)) || [[ $task == try && $1 == 1 ]] || say "$(meaning "$1")"
}

# Runs the words, and returns the status. Standard output gets what the program prints and nothing else.
run_plainly() {
    local status
    run_words
    status=$?
    say_status "$status"
    return "$status"
}

# The same, with a copy of the session and of its history, which are looked at afterwards.
run_with_copies() {
    local room status
    room=$(mktemp -d) || return 1
    # the folder's name is wanted now
    # shellcheck disable=SC2064
    trap "rm -rf -- $(printf '%q' "$room")" EXIT
    tee -- "$room/session" | run_words >"$room/history"
    status=("${PIPESTATUS[@]}")
    if ((status[1] == 0 && status[0] == 1)); then
        status[1]=3
    fi
    cat -- "$room/history" || status[1]=4
    say_status "${status[1]}"
    ((wants_explain == 0)) || explain_refused "$room/session" "$room/history"
    ((wants_summary == 0)) || summarize "$room/history"
    if ((is_strict == 1 && status[1] == 0)) && ! is_all_accepted "$room/history"; then
        status[1]=$strict_status
        say "$(meaning "$strict_status")"
    fi
    return "${status[1]}"
}

run_session() {
    if ((wants_summary + wants_explain + is_strict > 0)); then
        run_with_copies
    else
        run_plainly
    fi
}

explain_refused() { # SESSION HISTORY
    LC_ALL=C awk -v history="$2" -v grain="$grain" -f "$here/bin/lib/lines.awk" -f "$here/bin/lib/grammar.awk" \
        -f "$here/bin/lib/advice.awk" -f "$here/bin/lib/explain.awk" "$1" >&2
}

summarize() { # HISTORY
    LC_ALL=C awk -v history="$1" -f "$here/bin/lib/lines.awk" -f "$here/bin/lib/summary.awk" /dev/null >&2
}

# Whether no line was refused or couldn't be read.
is_all_accepted() { # HISTORY
    LC_ALL=C awk -v history="$1" -f "$here/bin/lib/lines.awk" -f "$here/bin/lib/strict.awk" /dev/null
}
