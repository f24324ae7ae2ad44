# shellcheck shell=bash disable=SC2154,SC2034
# What the checks share: how they are counted, and how the built program is run. It is sourced, not run, with `room` (a
# folder that goes at the end) and `program` (the built program).

# A program that doesn't end is a failure, after so many seconds.
most_seconds=300

passed=0
failed=0
pass() { passed=$((passed + 1)); }
fail() {
    failed=$((failed + 1))
    printf 'FAILED: %s\n' "$1"
}

# Passes where two values are the same.
is() { # WHAT WANTED FOUND
    if [[ $2 == "$3" ]]; then
        pass
    else
        fail "$1: $3, and not $2"
    fi
}

# Passes where a number is as great as is wanted: a loop over too little shows nothing.
is_at_least() { # WHAT LEAST FOUND
    if (($3 >= $2)); then
        pass
    else
        fail "$1: only $3, and $2 or more are wanted"
    fi
}

# Passes where the condition holds.
holds() { # WHAT CONDITION..
    local what=$1
    shift
    if "$@"; then
        pass
    else
        fail "$what"
    fi
}

# Takes over what a gate counted: its last line is 'N passed, M failed', and maybe more. Where it ended badly and counted
# no failure, or counted nothing, that is a failure.
count_gate() { # STATUS FILE
    local last
    last=$(tail -n 1 -- "$2")
    if [[ $last =~ ^([0-9]+)\ passed,\ ([0-9]+)\ failed ]]; then
        passed=$((passed + BASH_REMATCH[1]))
        failed=$((failed + BASH_REMATCH[2]))
        if (($1 != 0 && BASH_REMATCH[2] == 0)); then fail "the gate of the proofs ended with status $1"; fi
    else
        fail "the gate of the proofs didn't say what passed"
    fi
}

# How long the gate took, by clock and by the processors, as noted right behind it.
said_of_time() { # SECONDS
    printf '== the gate of the proofs took %d minutes of clock, and of the processors, for programs and for the system: %s\n' \
        $(($1 / 60)) "$(tail -n 1 -- "$room/times")"
}

# What a gate that ended badly said of what failed, once more: at most 60 lines.
said_of_failures() { # FILE
    echo "== what the gate of the proofs said of what failed"
    grep -E '^FAILED: |FAILED: |NOT REFUSED|NOT TRIED|: error|^rt: .* (hides|not proved|killed|fails)|^hides|logic=not-proved' -- "$1" |
        cut -c 1-300 | tail -n 60
}

# Runs the built program on what comes in, and leaves its output and its status behind.
run_program() { # WORD..
    timeout "$most_seconds" "$program" "$@" >"$room/out" 2>"$room/err"
    status=$?
}

# So many lines of output, and nothing on standard error.
wrote_lines() { [[ $(wc -l <"$room/out") -eq $1 ]]; }
wrote_nothing() { [[ ! -s $room/out ]]; }
complained_of_nothing() { [[ ! -s $room/err ]]; }
complains_of() { grep -qF -- "$1" "$room/err"; }
