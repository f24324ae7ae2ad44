# shellcheck shell=bash disable=SC2154
# What `flashcopy check` says of traces: of those in traces/, those that the program prints, and those of verdicts/tampered, which
# were changed; and the same of traces with a session behind them, those of verdicts/sessions among them. It is sourced, not run,
# at the top of the repository, beside counting.sh, program.sh and blocks.sh.

# How many changed traces there are at the least, how many with a session, and of how many entries the last session of blocks.
least_tampered=310
least_with_sessions=385
least_entries_of_blocks=200

# The trace with the entries numbered anew: an entry begins behind the first line, and behind each point.
numbered_anew() {
    awk '
        begins { sub(/^[0-9]+/, number++) }
        { print; begins = (NR == 1 || $0 == ".") }
    '
}

# A text as an edit changes it: [first N] [renumbered] SCRIPT, where SCRIPT is one of sed, by bytes.
edited() { # EDIT; the text comes in
    local edit=$1
    if [[ $edit =~ ^first\ (-?[0-9]+)\ ?(.*)$ ]]; then
        local count=${BASH_REMATCH[1]}
        edited "${BASH_REMATCH[2]}" | head -c "$count"
    elif [[ $edit == 'renumbered '* ]]; then
        edited "${edit#renumbered }" | numbered_anew
    else
        LC_ALL=C sed -e "$edit"
    fi
}

# The rows of a table, without the blanks around their bars.
rows_of() { # FILE
    sed -e '/^#/d' -e '/^$/d' -e 's/ *| */|/g' -- "$1"
}

# A session as it stands behind a trace.
behind_a_trace() { # SESSION
    echo session
    cat -- "$1"
}

# The line of a verdict, whose place may be given as L+B, B bytes behind the beginning of line L of the text, as session+B, behind so
# many bytes of a trace, or as the text's end.
verdict_of() { # VERDICT TEXT [BYTES]
    if [[ $1 == 'malformed end' ]]; then
        echo "malformed $(wc -c <"$2")"
    elif [[ $1 =~ ^malformed\ session\+([0-9]+)$ ]]; then
        echo "malformed $(($3 + BASH_REMATCH[1]))"
    elif [[ $1 =~ ^malformed\ ([0-9]+)\+([0-9]+)$ ]]; then
        echo "malformed $(($(head -n "$((BASH_REMATCH[1] - 1))" -- "$2" | wc -c) + BASH_REMATCH[2]))"
    else
        echo "$1"
    fi
}

# The status that goes with a verdict.
status_of() { # VERDICT
    case $1 in
        yes\ *) echo 0 ;;
        *) echo 9 ;;
    esac
}

# The program says this of a trace, or of one with a session, in a line, and nothing else.
is_judged() { # WHAT VERDICT TRACE
    run_program check <"$3"
    is "$1" "$2" "$(<"$room/out")"
    is "$1: status" "$(status_of "$2")" "$status"
    holds "$1: not one line" wrote_lines 1
    holds "$1: it complained" complained_of_nothing
}

# ---- traces that were changed
verdicts_tampered() {
    echo "== verdicts on traces that were changed"
    local trace edit verdict count=0
    while IFS='|' read -r trace edit verdict; do
        count=$((count + 1))
        edited "$edit" <"traces/$trace" >"$room/tampered"
        is_judged "$trace, $edit" "$(verdict_of "$verdict" "$room/tampered")" "$room/tampered"
    done < <(rows_of verdicts/tampered)
    is_at_least "traces that were changed" "$least_tampered" "$count"
}

# ---- traces with a session behind them, both maybe changed
verdicts_with_sessions() {
    echo "== verdicts on traces with a session"
    local name edit session_edit verdict trace session bytes count=0
    while IFS='|' read -r name edit session_edit verdict; do
        trace=traces/$name session=examples/$name
        if [[ ! -f $trace ]]; then trace=verdicts/blocks/$name session=$trace.session; fi
        count=$((count + 1))
        edited "$edit" <"$trace" >"$room/tampered"
        bytes=$(wc -c <"$room/tampered")
        behind_a_trace "$session" | edited "$session_edit" >>"$room/tampered"
        is_judged "$name, $edit, with $session_edit" "$(verdict_of "$verdict" "$room/tampered" "$bytes")" "$room/tampered"
    done < <(rows_of verdicts/sessions)
    is_at_least "traces with a session" "$least_with_sessions" "$count"
}

# ---- traces as they are: another program worked those of traces/ out, and our own prints those of the examples
verdicts_right() {
    echo "== verdicts on right traces"
    local trace name words
    for trace in traces/*; do
        is_judged "the trace of ${trace#traces/}, judged" "yes $(grep -cx '[.]' -- "$trace")" "$trace"
    done
    for name in examples/*.args; do
        name=${name%.args}
        mapfile -t words <"$name.args"
        "$program" "${words[@]}" --trace <"$name" >"$room/trace"
        is_judged_alone_and_with "the trace of $name" "$room/trace" "$name"
    done
}

# The program says of a whole trace that all its entries are right, and with its session, that they answer just its lines.
is_judged_alone_and_with() { # WHAT TRACE SESSION; the session is put behind the trace
    local entries
    entries=$(grep -cx '[.]' -- "$2")
    is_judged "$1, judged" "yes $entries" "$2"
    behind_a_trace "$3" >>"$2"
    is_judged "$1, judged with its session" "yes $entries" "$2"
}

# The generated session of a number: what docs/MANUAL.md says of drills, drawn by 64-bit numbers that multiply and add.
generated_session() ( # NUMBER; a shell of its own, since `draw` and `pieces` are names for it alone
    local state=$1 volume line kind first more ways=('' '-force ' '-split ')
    for volume in 0 1 2 3 4 5 6 7; do echo "mkvdisk -name V$volume -size 1"; done
    printf 'mkfcmap -source V%s -target V%s\n' '0' '1 -incremental' 0 2 1 '3 -copyrate 0' 3 4 4 '5 -copyrate 10' 1 0 6 '7 -incremental' 2 6
    draw() { # COUNT, leaves its draw in `drawn`
        state=$((state * 6364136223846793005 + 1442695040888963407))
        drawn=$((((state >> 33) & 0x7fffffff) % $1))
    }
    pieces() { # leaves the first block and how many from there on
        draw 2048
        first=$drawn
        draw 64
        more=$((1 + drawn))
        ((first + more <= 2048)) || more=$((2048 - first))
    }
    local drawn
    for ((line = 0; line < 5000; line++)); do
        draw 10
        kind=$drawn
        if ((kind < 7)); then
            draw 8
            volume=V$drawn
            pieces
            if ((kind < 4)); then
                draw 256
                printf 'write %s %d %d %02x\n' "$volume" "$first" "$more" "$drawn"
            else
                echo "read $volume $first $more"
            fi
        elif ((kind == 7)); then
            draw 8
            echo "startfcmap -prep -restore $drawn"
        elif ((kind == 8)); then
            draw 3
            kind=$drawn
            draw 8
            echo "stopfcmap ${ways[kind]}$drawn"
        else
            draw 3
            echo "advance -seconds $((1 + drawn))"
        fi
    done
)

# ---- the trace of a drill's session, with as many entries as the drill says
verdicts_on_drills() {
    echo "== verdicts on the traces of drills"
    local number count
    for ((number = 0; number <= 20; number++)); do
        generated_session "$number" >"$room/session"
        run_program drill "$number" </dev/null
        count=$(awk '{ print $2 }' "$room/out")
        "$program" run --grain 64 --trace <"$room/session" >"$room/trace"
        is "the trace of drill $number: entries" "$count" "$(grep -cx '[.]' -- "$room/trace")"
        is_judged_alone_and_with "the trace of drill $number" "$room/trace" "$room/session"
    done
}

# ---- the traces of blocks, whose actors came in whatever order
verdicts_on_blocks() {
    echo "== verdicts on the traces of blocks"
    local number entries
    for ((number = 1; number <= 20; number++)); do
        session_of_many "$number" >"$room/session"
        "$program" run --grain 64 --trace <"$room/session" >"$room/trace"
        entries=$(grep -cx '[.]' -- "$room/trace")
        is_judged_alone_and_with "the trace of blocks of many actors, session $number" "$room/trace" "$room/session"
    done
    is_at_least "the trace of blocks of many actors: entries of the last session" "$least_entries_of_blocks" "$entries"
    for ((number = 1; number <= 20; number++)); do
        "$program" run --grain 64 --trace <"$five_actors.session" >"$room/trace"
        is_judged_alone_and_with "the trace of a block of five actors, run $number" "$room/trace" "$five_actors.session"
    done
}

# The trace of so many lines that can't be read.
trace_of_faults() { # COUNT
    awk -v n="$1" 'BEGIN {
        print "trace 64 4 flat 0 0 0 0 thin 0 0 0 0"
        for (i = 0; i < n; i++) printf "%d main - -> refused unknown command\n.\n", i
    }'
}

# So many lines that can't be read, as a session behind a trace.
session_of_faults() { # COUNT
    behind_a_trace <(awk -v n="$1" 'BEGIN { for (i = 0; i < n; i++) print "frob" }')
}

# ---- behind the last entry that there may be, a session still stands; and it counts among the bytes
limits_with_sessions() { # TRACE of 262,144 entries
    local trace=$1 size count verdict
    size=$(wc -c <"$trace")
    while read -r count verdict; do
        { cat -- "$trace" && session_of_faults "$count"; } >"$room/judged"
        is_judged "262,144 entries with $count lines" "$verdict" "$room/judged"
    done <<'END'
262144 yes 262144
262143 no 262143
262145 no 262144
0 no 0
END
    { cat -- "$trace" && printf s; } >"$room/judged"
    is_judged "262,144 entries and half a line" "malformed $((size + 1))" "$room/judged"
    { cat -- "$trace" && echo sessions; } >"$room/judged"
    is_judged "262,144 entries and another line" "malformed $((size + 7))" "$room/judged"

    # blank lines give no entry
    { cat traces/first-volume && behind_a_trace examples/first-volume; } >"$room/judged"
    size=$(wc -c <"$room/judged")
    newlines "$((67108864 - size))" >>"$room/judged"
    is_judged "67,108,864 bytes of a trace with its session" "yes 3" "$room/judged"
    echo >>"$room/judged"
    run_program check <"$room/judged"
    is "67,108,865 bytes of a trace with its session: status" 7 "$status"
    holds "67,108,865 bytes of a trace with its session: something was written" wrote_nothing
    rm -f -- "$room/judged"
}

# A trace whose report has a row of so many bytes, up to that row's end.
trace_of_a_row() { # BYTES
    printf 'trace 64 4 flat 0 0 0 0 thin 0 0 0 0\n0 main lsvdisk -> rows 1\n'
    one_line "$1"
}

# ---- limits, and standard input and output that fail: nothing is said
verdicts_not_said() {
    echo "== traces of which nothing is said"
    local begun behind
    trace_of_faults 262144 >"$room/trace"
    is_judged "a trace of 262,144 entries" "yes 262144" "$room/trace"
    for behind in x 2 S . + ' ' $'\n' $'\r'; do
        run_program check < <(cat -- "$room/trace" && printf '%s' "$behind")
        is "a byte behind entry 262,144, '$behind': status" 6 "$status"
        holds "a byte behind entry 262,144, '$behind': something was written" wrote_nothing
    done
    limits_with_sessions "$room/trace"

    begun=$(trace_of_a_row 0 | wc -c)
    trace_of_a_row "$((67108864 - begun))" >"$room/trace"
    is_judged "67,108,864 bytes of a trace" "malformed 67108864" "$room/trace"
    printf x >>"$room/trace"
    run_program check <"$room/trace"
    is "67,108,865 bytes of a trace: status" 7 "$status"
    holds "67,108,865 bytes of a trace: something was written" wrote_nothing
    # what stops being a trace before the end is said of as many bytes, too
    run_program check < <(one_line 67108865)
    is "67,108,865 bytes that are no trace" "malformed 0" "$(<"$room/out")"
    rm -f -- "$room/trace"

    run_program check <"$room"
    is "check, and standard input fails: status" 3 "$status"
    holds "check, and standard input fails: something was written" wrote_nothing
    if [[ -c /dev/full && -w /dev/full ]]; then
        timeout "$most_seconds" "$program" check <traces/one-mapping >/dev/full 2>"$room/err"
        is "check, and standard output fails: status" 4 $?
        timeout "$most_seconds" "$program" check <examples/one-mapping >/dev/full 2>"$room/err"
        is "check of no trace, and standard output fails: status" 4 $?
    fi
}

verdicts() {
    verdicts_right
    verdicts_tampered
    verdicts_with_sessions
    verdicts_on_drills
    verdicts_on_blocks
    verdicts_not_said
}
