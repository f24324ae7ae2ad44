# shellcheck shell=bash disable=SC2154
# The examples: each has its three files and says what it shows; unproved and by the proved program they print what is
# recorded, to the byte. It is sourced, not run, at the top of the repository.

# How many examples there are at the least: fewer are a mistake.
least_examples=96

# How many traces there are at the least.
least_traces=40

# ---- each example is a session, its words and its history, and begins with a comment
examples_whole() {
    echo "== the examples' files"
    local file name suffix count=0
    for file in examples/*; do
        name=${file%.args}
        name=${name%.stdout}
        for suffix in '' .args .stdout; do
            [[ -f $name$suffix ]] || fail "$file: there is no $name$suffix"
        done
        [[ $file == "$name" ]] || continue
        count=$((count + 1))
        holds "$name doesn't begin with a comment that says what it shows" grep -qE '^# .{10}' <(head -n 1 -- "$name")
    done
    is_at_least "examples" "$least_examples" "$count"
}

# The programs are compiled with checks of memory beside the other checks, since a compilation takes minutes of one processor:
# `begin_try` begins one, and `end_try` waits for it and counts.
begin_try() { # CRATE FOLDER
    (cd "crates/$1" && rt try --seconds "$most_seconds" --cases "$2" >/dev/null 2>"$room/tried-$1") &
    printf '%d' "$!" >"$room/trying-$1"
}

# The program of a crate printed of each case of its folder what is recorded beside it.
end_try() { # WHAT LEAST CRATE
    local said last all ended fault differs silent
    wait "$(<"$room/trying-$3")"
    said=$(<"$room/tried-$3")
    printf '%s\n' "$said"
    last=$(tail -n 1 <<<"$said")
    if [[ $last =~ ^cases=([0-9]+)\ ended=([0-9]+)\ fault=([0-9]+)\ differs=([0-9]+)\ no-answer=([0-9]+) ]]; then
        all=${BASH_REMATCH[1]} ended=${BASH_REMATCH[2]} fault=${BASH_REMATCH[3]} differs=${BASH_REMATCH[4]}
        silent=${BASH_REMATCH[5]}
        passed=$((passed + ended))
        failed=$((failed + fault + differs + silent))
        is_at_least "$1 that were tried" "$2" "$all"
    else
        fail "the $1 couldn't be tried"
    fi
}

# ---- without any proof: compiled with checks of memory
begin_examples() { begin_try flashcopy ../../examples; }
examples_unproved() {
    echo "== examples, compiled with checks of memory"
    end_try examples "$least_examples" flashcopy
}

# ---- by the proved program: the same output to the byte, and status 0
examples_proved() {
    echo "== examples, by the proved program"
    local args name words
    for args in examples/*.args; do
        name=${args%.args}
        mapfile -t words <"$args"
        run_program "${words[@]}" <"$name"
        holds "$name: the output differs" cmp -s "$room/out" "$name.stdout"
        is "$name: status" 0 "$status"
    done
    run_program run </dev/null
    is "no input: status" 0 "$status"
    holds "no input: something was written" wrote_nothing
}

# ---- traces: those of traces/ were worked out by another program, in part by hand, for the examples of the same names
traces_proved() {
    echo "== traces of examples, by the proved program"
    local count=0 name trace words
    for trace in traces/*; do
        name=${trace#traces/}
        mapfile -t words <"examples/$name.args"
        run_program "${words[@]}" --trace <"examples/$name"
        holds "the trace of $name differs" cmp -s "$room/out" "$trace"
        is "the trace of $name: status" 0 "$status"
        count=$((count + 1))
    done
    is_at_least "traces" "$least_traces" "$count"
    # without a line there is the first line alone, and the plain text of any session stands in its trace
    run_program run --trace --grain 64 </dev/null
    is "the trace of no input" "trace 64 4 flat 512 512 512 512 thin 512 512 512 512" "$(<"$room/out")"
    for name in examples/*.args; do
        name=${name%.args}
        mapfile -t words <"$name.args"
        run_program "${words[@]}" --trace <"$name"
        holds "$name: its trace without its first line, lines of what was done and ends isn't its text" \
            cmp -s <(tail -n +2 -- "$room/out" | grep -v -e '^+' -e '^\.$') "$name.stdout"
    done
}
