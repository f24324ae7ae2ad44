# shellcheck shell=bash disable=SC2154
# What is checked of `stop K` of the built program: the worked session and one with presets, whose texts stand in the table of stop_runs,
# and drawn sessions, which are compared with a plain program (bench/stopped_sessions.sh, here at some of their calls). It is sourced,
# not run, with what counting.sh has.

# A session of stop_runs, by its name there.
session_of_runs() { # SESSION|PRESETS
    sed -n "s/\\\\n/\\n/g; /^const $1/,/^\";/p" crates/stop_runs/src/main.rt |
        sed -e "s/^const $1: &str = \"//" -e '/^";$/d'
}

# Its stops at these calls are as in the table, where a word stands before the call, or none.
stops_as_in_table() { # WORD-AND-SPACE CALL..
    local word="$1" call
    shift
    for call in "$@"; do
        run_program stop "$call" <"$room/session"
        is "stop $word$call: status" 0 "$status"
        awk -v head="== $word$call status " '/^== / { on = index($0, head) == 1; next } on' crates/stop_runs/stdout >"$room/stopped"
        holds "stop $word$call isn't what stands in the table" cmp -s "$room/out" "$room/stopped"
    done
}

stops_worked() {
    session_of_runs PRESETS >"$room/session"
    stops_as_in_table 'presets ' 19 21 26 31 33 51 55 57 61 62 63
    session_of_runs SESSION >"$room/session"
    stops_as_in_table '' 1 2 3 4 5 11 17 33 35 36 37 40 41
    # the lines of blocks name no line there
    run_program stop 100 < <(printf '%s\n' together 'actor a host' end)
    is "stop of lines that aren't there: status" 0 "$status"
    is "lines that aren't there" 3 "$(grep -c ' main - -> refused unknown command$' "$room/out")"
    run_program stop 1 <"$room"
    is "stop, and standard input fails: status" 0 "$status"
    run_program stop 100 <"$room"
    is "stop past the first calls, and standard input fails: status" 3 "$status"
    timeout "$most_seconds" "$program" stop 100 <"$room/session" >/dev/full 2>"$room/err"
    is "stop, and standard output fails: status" 4 $?
}

# The plain program that drawn sessions are compared with, beside the examples: what their entries answer, and their rows of mappings.
# It has no blocks.
plain_program() {
    local words name options blocks count=0
    for words in examples/*.args; do
        name=$(basename -- "$words" .args)
        grep -q '^together' "examples/$name" && continue
        options=$(tr '\n' ' ' <"$words")
        blocks=512
        case $options in *64*) blocks=128 ;; esac
        count=$((count + 1))
        is "the plain program beside examples/$name" '0 0 0 0 0' "$(awk -v session="$name" -v blocks="$blocks" \
            -f bench/stopped/chains.awk -f bench/stopped/plain.awk -f bench/stopped/compare.awk "examples/$name.stdout")"
    done
    is_at_least "examples beside the plain program" 90 "$count"
}

# Drawn sessions, stopped at every so many calls, beside the plain program.
stops_drawn() { # SESSIONS STEP LEAST
    local status=0 last stops=0
    PROGRAM=$(readlink -f -- "$program") timeout "$most_seconds" bash bench/stopped_sessions.sh "$1" "$2" >"$room/drawn" 2>&1 || status=$?
    is "drawn sessions that stop: status" 0 "$status"
    last=$(tail -n 1 -- "$room/drawn")
    if [[ $last =~ ^"$1 sessions, "([0-9]+)" stops, "[0-9]+" rows and "[0-9]+" reads compared: 0 wrong, 0 elsewhere"$ ]]; then
        stops=${BASH_REMATCH[1]}
    else
        grep -A 12 '^session [0-9]*:' -- "$room/drawn" | head -n 40
    fi
    is_at_least "stops of drawn sessions, none wrong" "$3" "$stops"
}

stops() {
    echo "== stops"
    stops_worked
    plain_program
    stops_drawn 8 11 180
}
