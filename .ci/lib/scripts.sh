# shellcheck shell=bash disable=SC2154
# bin/flashcopy and bin/fcview, checked with a stand-in for the built program and one for the kit, so that it costs seconds. It is
# sourced, not run, at the top of the repository, behind counting.sh and program.sh (whose tables of words it takes).
#
# The stand-in program prints the file `printed` of the tree and ends with the status in its file `status`; it leaves its
# words in `words`. The stand-in kit leaves the words of each call but `version` in `called`, and what `rt try` says last
# is in its file `tried`.

# Makes a tree with the script, the examples, a few sources and both stand-ins.
make_tree() {
    tree=$room/tree
    mkdir -p "$tree/crates/flashcopy/src" "$tree/crates/fcview/src" "$tree/crates/fc_top/specs" "$tree/crates/model_tests/src" "$tree/kit"
    cp -r bin examples traces HANDLES "$tree/"
    printf '%s\n' 'fc_top:' 'model_tests: fc_top' 'flashcopy: fc_top' 'fcview: fc_top' >"$tree/crates.txt"
    echo '// the program' >"$tree/crates/flashcopy/src/main.rt"
    echo '// the viewer' >"$tree/crates/fcview/src/main.rt"
    echo 'a definition' >"$tree/crates/fc_top/specs/Words.antt"
    echo '// tests' >"$tree/crates/model_tests/src/lib.rt"
    cat >"$tree/program" <<'END'
#!/bin/bash
tree=$(cat -- "$(dirname -- "$0")/tree")
printf '%s\n' "$*" >>"$tree/words"
[[ ${1-} == drill ]] || cat >"$tree/taken"
cat -- "$tree/printed"
exit "$(<"$tree/status")"
END
    cat >"$tree/kit/rt" <<'END'
#!/bin/bash
tree=$(dirname -- "$(dirname -- "$0")")
case $1 in
    version)
        cat -- "$tree/version"
        exit
        ;;
    run)
        echo "logic=proved functions=1"
        sleep "$(<"$tree/build_seconds")"
        [[ -e $tree/unprovable ]] && { echo "fn f: not proved"; exit 1; }
        mkdir -p out
        cp -- "$tree/program" "out/$(basename -- "$PWD")"
        echo "$tree" >out/tree
        ;;
    try)
        cat >"$tree/taken"
        cat -- "$tree/printed"
        cat -- "$tree/tried" >&2
        ;;
esac
printf '%s\n' "$*" >>"$tree/called"
END
    chmod +x "$tree/program" "$tree/kit/rt"
    fresh_tree
}

# Nothing is built, and nothing was called.
fresh_tree() {
    rm -rf -- "$tree/crates/flashcopy/out" "$tree/crates/fcview/out" "$tree/called" "$tree/words" "$tree/unprovable"
    echo 'a-kit logic 0123' >"$tree/version"
    echo 'run=ended status=0 runners=1 proved=no' >"$tree/tried"
    echo 0 >"$tree/status"
    echo 0 >"$tree/build_seconds"
    cp -- examples/first-volume.stdout "$tree/printed"
}

# The program is built, by the script.
build_tree() {
    fresh_tree
    in_tree bin/flashcopy build >/dev/null 2>&1
    rm -f -- "$tree/called" "$tree/words"
}

# Runs a command in the tree, with the stand-in of the kit on the path.
in_tree() { (cd -- "$tree" && exec env PATH="$tree/kit:$PATH" timeout "$most_seconds" "$@"); } # COMMAND..

# The same without any kit on the path.
in_tree_without_kit() { (cd -- "$tree" && exec env PATH="$(path_without_kit)" timeout "$most_seconds" "$@"); } # COMMAND..

# The search path without a folder that has rt.
path_without_kit() {
    local folder all=''
    while IFS= read -r -d : folder; do
        [[ -x $folder/rt ]] || all=$all:$folder
    done <<<"$PATH:"
    printf '%s' "${all#:}"
}

# Runs the tree's script, and leaves its output, its complaints and its status behind.
run_script() { # WORD..
    in_tree bin/flashcopy "$@" >"$room/out" 2>"$room/err"
    status=$?
}

was_not_called() { [[ ! -e $tree/called ]]; }
was_built() { [[ -e $tree/called && $(<"$tree/called") == "run -- run" ]]; }
complained_in_one_line() { [[ $(wc -l <"$room/err") -eq 1 ]]; }

# ---- words: judged before anything is built, and those of the program as the program judges them
words_of_script() {
    echo "== the words of bin/flashcopy"
    local line words
    fresh_tree
    while IFS= read -r line; do
        read -ra words <<<"$line"
        run_script ${words[@]+"${words[@]}"} <examples/first-volume
        is "bin/flashcopy $line: status" 2 "$status"
        holds "bin/flashcopy $line: something was written" wrote_nothing
        holds "bin/flashcopy $line: not one line on standard error" complained_in_one_line
        holds "bin/flashcopy $line: something was built first" was_not_called
    done < <(
        bad_words
        printf '%s\n' '--help me' '-h -h' 'help run' '--version 1' 'build now' 'show a b' 'show -x' 'show ../README' \
            'run - ' 'run a b' 'run --summary --summary' 'run --strict=1' 'try --grain 65' 'try 7 8' 'drill 7 --summary' \
            'drill' 'show --grain 64' 'check a b' 'check --strict' 'stop 1 a b' 'stop 1 --strict' 'stop 1 nofile' 'check nofile' 'check examples' 'run nofile' 'run examples' \
            'try nofile'
    )
    build_tree
    while IFS= read -r line; do
        read -ra words <<<"$line"
        run_script "${words[@]}" <examples/first-volume
        is "bin/flashcopy $line: status" 0 "$status"
        is "the words that the program got of '$line'" "run${line#run}" "$(tail -n 1 -- "$tree/words" | sed 's/--grain \(64\|256\)$/--grain \1/')"
    done < <(good_words | sed 's/--grain=/--grain /')
    run_script run --grain=64 --strict --summary "$top/examples/two-grains"
    is "the words that the program gets beside the script's own" "run --grain 64" "$(tail -n 1 -- "$tree/words")"
    holds "the session that the program gets isn't the file's" cmp -s "$tree/taken" examples/two-grains
    run_script drill 00000000000000000007
    is "the words of a drill" "drill 00000000000000000007" "$(tail -n 1 -- "$tree/words")"
    run_script check "$top/traces/one-mapping"
    is "the words of a check" check "$(tail -n 1 -- "$tree/words")"
    holds "the trace that the program gets isn't the file's" cmp -s "$tree/taken" traces/one-mapping
    run_script check <traces/torn
    holds "the trace that the program gets isn't that of standard input" cmp -s "$tree/taken" traces/torn
    run_script stop 4294967295 "$top/examples/two-grains"
    is "the words of a stop" "stop 4294967295" "$(tail -n 1 -- "$tree/words")"
    holds "the session that a stop gets isn't the file's" cmp -s "$tree/taken" examples/two-grains
}

# ---- help, the version, and the help text that is made of the program's words, where there is one
help_and_version() {
    echo "== help and version"
    local word
    fresh_tree
    run_script --help
    is "bin/flashcopy --help: status" 0 "$status"
    holds "bin/flashcopy --help: it complained" complained_of_nothing
    cp -- "$room/out" "$room/help"
    for word in -h help; do
        run_script "$word"
        holds "bin/flashcopy $word isn't --help" cmp -s "$room/out" "$room/help"
    done
    for word in show try run drill check stop build --version --grain --summary --explain --strict; do
        holds "bin/flashcopy --help doesn't speak of $word" grep -qF -- "$word" "$room/help"
    done
    run_script --version
    is "bin/flashcopy --version: status" 0 "$status"
    holds "bin/flashcopy --version: it doesn't say that nothing is built" grep -q 'not built$' "$room/out"
    holds "help or the version built something" was_not_called
    build_tree
    run_script --version
    holds "bin/flashcopy --version doesn't name the kit that built it" grep -q 'built with a-kit logic 0123$' "$room/out"
}

# The help text that the crate args_help prints of the program's own words (its recorded output, which the gate of the
# proofs compares), where there is that crate, stands in the script's, line behind line.
help_agrees_with_program() {
    local recorded=crates/args_help/stdout
    [[ -f $recorded ]] || return 0
    echo "== bin/flashcopy --help and $recorded"
    bin/flashcopy --help >"$room/out" 2>"$room/err"
    holds "the lines of $recorded don't stand in bin/flashcopy --help" stands_inside "$recorded" "$room/out"
}

# Whether the lines of a file stand in another one, directly behind each other.
stands_inside() { # FILE-OF-LINES FILE
    [[ -s $1 ]] && awk -v part="$1" '
        BEGIN { while ((getline line < part) > 0) wanted[++n] = line }
        { have[NR] = $0 }
        END {
            for (from = 1; from + n - 1 <= NR; from++) {
                for (k = 1; k <= n && have[from + k - 1] == wanted[k]; k++);
                if (k > n) exit 0
            }
            exit 1
        }
    ' "$2"
}

# ---- show: at once, and all of it
showing() {
    echo "== bin/flashcopy show"
    fresh_tree
    run_script show
    is "bin/flashcopy show: status" 0 "$status"
    is "bin/flashcopy show: examples" "$(find examples -name '*.args' | wc -l)" "$(wc -l <"$room/out")"
    is "bin/flashcopy show: examples of which nothing is said" 0 "$(grep -cE '^[a-z0-9-]+ *$' "$room/out")"
    run_script show first-volume
    is "bin/flashcopy show first-volume: status" 0 "$status"
    is "bin/flashcopy show first-volume" "bin/flashcopy run --grain 64 examples/first-volume
prints what stands behind the bars (recorded in examples/first-volume.stdout):

# A volume is made, written and read.
mkvdisk -name A -size 1                      | 0 main mkvdisk -name A -size 1 -> Virtual Disk, id [0], successfully created
write A 0 1 5a                               | 1 main write 0 0 1 5a -> ok
read A 0 2                                   | 2 main read 0 0 2 -> data 512*5a,512*00" "$(<"$room/out")"
    local name
    for name in nights-work stopping-cleaned refusals-of-starts limits-of-volumes presets preset-undone; do
        run_script show "$name"
        sed -n 's/^.* | \([0-9a-z].*\)$/\1/p' "$room/out" >"$room/behind"
        holds "bin/flashcopy show $name: its history isn't whole" cmp -s "$room/behind" <(grep -v ' | ' "examples/$name.stdout")
    done
    run_script show nothing-like-it
    is "bin/flashcopy show of no example: status" 2 "$status"
    holds "bin/flashcopy show built something" was_not_called
}

# ---- what is built, when, and what is said of it
building() {
    echo "== building"
    fresh_tree
    run_script run "$top/examples/first-volume"
    is "an unbuilt run: status" 0 "$status"
    holds "an unbuilt run: the output differs" cmp -s "$room/out" examples/first-volume.stdout
    holds "an unbuilt run: it wasn't built" was_built
    holds "an unbuilt run: it doesn't speak of try" complains_of "flashcopy try"
    holds "an unbuilt run: it doesn't say where the log is" complains_of "the log is /"
    rm -f -- "$tree/called"

    run_script run "$top/examples/first-volume"
    holds "a built run: it was built again" was_not_called
    holds "a built run: it complained" complained_of_nothing
    touch -- "$tree/crates/flashcopy/src/main.rt"
    echo '// more tests' >>"$tree/crates/model_tests/src/lib.rt"
    run_script run </dev/null
    holds "a touched file or another crate: it was built again" was_not_called
    echo 'another definition' >>"$tree/crates/fc_top/specs/Words.antt"
    run_script run </dev/null
    holds "a changed source below: it wasn't built" was_built
    holds "a changed source below: it isn't said" complains_of "the sources have changed"
    rm -f -- "$tree/called"
    echo 'b-kit logic 0123' >"$tree/version"
    run_script run </dev/null
    holds "another kit: it wasn't built" was_built
    holds "another kit: it isn't said" complains_of "the kit was a-kit logic 0123"

    build_tree
    rm -- "$tree/crates/flashcopy/out/flashcopy.stamp"
    run_script run </dev/null
    holds "no stamp: it wasn't built" was_built
    in_tree_without_kit bin/flashcopy run --grain 64 <examples/first-volume >"$room/out" 2>"$room/err"
    is "a built run without the kit: status" 0 $?
    holds "a built run without the kit: the output differs" cmp -s "$room/out" examples/first-volume.stdout

    fresh_tree
    touch -- "$tree/unprovable"
    run_script run </dev/null
    is "a run that can't be built: status" 1 "$status"
    holds "a run that can't be built: the log isn't shown" complains_of "fn f: not proved"
    in_tree_without_kit bin/flashcopy run </dev/null >"$room/out" 2>"$room/err"
    is "no program and no kit: status" 1 $?

    fresh_tree
    echo 2 >"$tree/build_seconds"
    # shellcheck disable=SC2016
    in_tree bash -c '
        here=$PWD
        say() { printf "flashcopy: %s\n" "$1" >&2; }
        source bin/lib/kit.sh
        progress_seconds=1
        build
    ' 2>"$room/err"
    holds "a long build: it doesn't count the crates" complains_of "1 crates proved so far, of at most 2"
}

# ---- the program's status is handed on, and said in one line
statuses() {
    echo "== statuses"
    build_tree
    local number task
    for number in 2 3 4 5 6 7 8 9; do
        for task in run check; do
            echo "$number" >"$tree/status"
            run_script "$task" </dev/null
            is "the program ends with $number in $task: the script's status" "$number" "$status"
            holds "the program ends with $number in $task: not one line is said" complained_in_one_line
        done
    done
    echo 6 >"$tree/status"
    run_script run --strict "$top/examples/first-volume"
    is "--strict, and the program ends with 6: status" 6 "$status"
    echo 0 >"$tree/status"
    in_tree bin/flashcopy run --summary </dev/null 2>"$room/err" >/dev/full
    is "--summary, and standard output fails: status" 4 $?
}

# ---- try: unproved, and it says so
trying() {
    echo "== bin/flashcopy try"
    fresh_tree
    run_script try --grain 64 "$top/examples/first-volume"
    is "bin/flashcopy try: status" 0 "$status"
    holds "bin/flashcopy try: the output differs" cmp -s "$room/out" examples/first-volume.stdout
    is "bin/flashcopy try: lines that say 'not proved'" 2 "$(grep -c 'not proved' "$room/err")"
    is "bin/flashcopy try: what the kit was asked" "try -- run --grain 64" "$(<"$tree/called")"
    holds "the session that try gets isn't the file's" cmp -s "$tree/taken" examples/first-volume
    local last wanted
    while IFS='|' read -r last wanted; do
        printf 'a line before\n%s\n' "$last" >"$tree/tried"
        run_script try </dev/null
        is "bin/flashcopy try, after '$last': status" "$wanted" "$status"
    done <<'END'
run=ended status=6 runners=1 proved=no|6
run=ended status=2 runners=2 races=unchecked proved=no|2
run=no-answer proved=no|1
run=fault proved=no|1
run=differs proved=no|1
run=none proved=no|1
END
    in_tree_without_kit bin/flashcopy try </dev/null >"$room/out" 2>"$room/err"
    is "bin/flashcopy try without the kit: status" 1 $?
}

# ---- afterwards: --summary, --explain and --strict, on standard error and only when asked
looking_back() {
    echo "== --summary, --explain, --strict"
    build_tree
    cp -- examples/disk-fault.stdout "$tree/printed"
    run_script run --summary --explain --strict "$top/examples/disk-fault"
    is "--strict where nothing is refused: status" 0 "$status"
    holds "--summary: the history differs" cmp -s "$room/out" examples/disk-fault.stdout
    is "--summary" "flashcopy: entries 19, refused 0, unread 0, disk faults 1" "$(<"$room/err")"

    cp -- examples/words.stdout "$tree/printed"
    run_script run --strict <examples/words
    is "--strict where lines are unread: status" 10 "$status"
    holds "--strict: not one line" complained_in_one_line
    run_script run --summary <examples/words
    is "--summary of unread lines: status" 0 "$status"
    is "--summary of unread lines" "flashcopy: entries 8, refused 1, unread 7, disk faults 0" "$(<"$room/err")"
    run_script run <examples/words
    holds "nothing was asked, and something is said" complained_of_nothing
    explanations
    block_explained
    preset_explained
    every_refusal_explained
    at_a_terminal
}

# A session whose lines are refused in many ways, its history by the rules, and the explanations wanted.
explanations() {
    printf '%s\n' '# comments and blank lines count as lines' '' 'mkvdisk -name A -size 300 -unit kb' \
        $'\357\273\277mkvdisk -size 1' $'mkvdisk \342\200\223size 1' $'mkvdisk\302\240-size 1' 'mkvdisk -name A -size 1' \
        'write A 0 1024 11' $'\tread A 2047 2' 'mkvdisk -name B -size 1' 'mkfcmap -source A -target C' \
        'mkfcmap -source A -target B' 'startfcmap -prep 0' 'startfcmap -prep 0' 'mkvdisk -mirror 2 -size 1' >"$room/session"
    printf '%s\n' '0 main mkvdisk -name A -size 300 -unit kb -> refused bad value of size' \
        '1 main - -> refused unknown command' '2 main - -> refused unknown option at word 2' \
        '3 main - -> refused unknown command' '4 main mkvdisk -name A -size 1 -> Virtual Disk, id [0], successfully created' \
        '5 main write 0 0 512 11 -> ok' '6 main write 0 512 512 11 -> ok' \
        '7 main read A 2047 2 -> refused bad value of blocks' \
        '8 main mkvdisk -name B -size 1 -> Virtual Disk, id [1], successfully created' \
        '9 main mkfcmap -source A -target C -> refused no such vdisk' \
        '10 main mkfcmap -source A -target B -> FlashCopy Mapping, id [0], successfully created' \
        '11 main startfcmap -prep 0 -> ok' '12 main startfcmap -prep 0 -> refused not allowed in copying' \
        '13 main - -> refused unknown option at word 2' >"$tree/printed"
    run_script run --explain "$room/session"
    is "--explain: status" 0 "$status"
    sed 's/^|//' >"$room/wanted" <<'END'
|flashcopy: line 3, entry 0: refused bad value of size
|    mkvdisk -name A -size 300 -unit kb
|                          ^^^
|    A size that isn't whole grains: a grain has 256 KiB here, so 256 kb or 512 kb would do.
|flashcopy: line 4, entry 1: refused unknown command
|    BOMmkvdisk -size 1
|    ^^^^^^^^
|    No line begins with this word. docs/MANUAL.md has the table of lines. The line begins with a byte order mark: save the file without one.
|flashcopy: line 5, entry 2: refused unknown option at word 2
|    mkvdisk DASHsize 1
|            ^^^^^
|    `mkvdisk` has options alone, and this word is neither an option nor the value of one. There is a dash in the line that isn't a hyphen: options begin with a plain -.
|flashcopy: line 6, entry 3: refused unknown command
|    mkvdiskSPACE-size 1
|    ^^^^^^^^^^^^^
|    No line begins with this word. docs/MANUAL.md has the table of lines. There is a no-break space in the line: put a plain space in its place.
|flashcopy: line 9, entry 7: refused bad value of blocks
|    	read A 2047 2
|    	       ^^^^
|    The volume has 2048 blocks of 512 bytes, 0 to 2047, and this goes past them.
|flashcopy: line 11, entry 9: refused no such vdisk
|    mkfcmap -source A -target C
|                              ^
|    No volume has this id or name here. lsvdisk lists those that are there.
|flashcopy: line 14, entry 12: refused not allowed in copying
|    startfcmap -prep 0
|                     ^
|    The mapping is copying already: stop it first (stopfcmap), or let time pass until its copy is complete and nothing needs it.
|flashcopy: line 15, entry 13: refused unknown option at word 2
|    mkvdisk -mirror 2 -size 1
|            ^^^^^^^
|    `mkvdisk` has no option -mirror. It has -name, -size, -unit and -thin.
END
    LC_ALL=C sed -e $'s/\357\273\277/BOM/' -e $'s/\342\200\223/DASH/' -e $'s/ *\302\240/SPACE/' "$room/err" >"$room/plain"
    if cmp -s "$room/plain" "$room/wanted"; then
        pass
    else
        fail "--explain: the explanations differ"
        diff "$room/wanted" "$room/plain"
    fi
}

# A block of actors, whose entries stand in no order of lines: each is explained at the line that it answers.
block_explained() {
    printf '%s\n' 'mkvdisk -name A -size 1' together 'actor w copier 2' 'read A 0 1' 'actor h host' frob 'read A 0 600' \
        'read A 5000 1' 'actor h admin' lsvdisk 'actor a admin' 'stopfcmap 7' end 'read Z 0 1' >"$room/session"
    printf '%s\n' '0 main mkvdisk -name A -size 1 -> Virtual Disk, id [0], successfully created' \
        '1 main - -> refused not in a block' '2 main - -> refused bad name at word 2' '3 main - -> refused no actor' \
        '4 h - -> refused unknown command' '5 a stopfcmap 7 -> refused no such fcmap' '6 w copyturn 0 -> idle' \
        '7 h read 0 0 512 -> data 262144*00' '8 h read 0 512 88 -> data 45056*00' '9 w copyturn 1 -> idle' \
        '10 h read A 5000 1 -> refused bad value of blocks' '11 main read Z 0 1 -> refused no such vdisk' >"$tree/printed"
    run_script run --explain "$room/session"
    is "--explain of a block: the lines of its entries" "line 4, entry 1
line 9, entry 2
line 10, entry 3
line 6, entry 4
line 12, entry 5
line 8, entry 10
line 14, entry 11" "$(sed -n 's/^flashcopy: \(line [0-9]*, entry [0-9]*\):.*/\1/p' "$room/err")"
}

# A preset, of which several entries may answer one line: a refused one is explained at the words of that line, also where memory was
# wanted for one before it.
preset_explained() {
    cp -- examples/refusals-of-presets.stdout "$tree/printed"
    run_script run --grain 64 --explain "$top/examples/refusals-of-presets"
    is "--explain of presets: the lines of their entries, and the words that are meant" "line 6, entry 3: X
line 7, entry 4: 7
line 9, entry 5: B
line 11, entry 7: m
line 15, entry 13: B
line 19, entry 19: mkpreset
line 21, entry 22: mkpreset
line 24, entry 24: D" "$(explained_words <"$room/err" | head -n 8)"
    printf '%s\n' 'mkvdisk -name A -size 1' 'mkpreset -source A -preset clone' 'mkpreset -source A -preset backup -name b' \
        'mkpreset -source A -preset snapshot' 'read C 0 1' >"$room/session"
    printf '%s\n' '0 main mkvdisk -name A -size 1 -> Virtual Disk, id [0], successfully created' \
        '1 main mkvdisk -size 1024 -unit kb -> no memory' \
        '2 main mkvdisk -name b -size 1024 -unit kb -> Virtual Disk, id [1], successfully created' \
        '3 main mkfcmap -source A -target 1 -name b -copyrate 50 -incremental -> no memory' '4 main rmvdisk 1 -> ok' \
        '5 main mkvdisk -size 1024 -unit kb -thin -> Virtual Disk, id [2], successfully created' \
        '6 main mkfcmap -source A -target 2 -copyrate 0 -cleanrate 0 -> FlashCopy Mapping, id [0], successfully created' \
        '7 main startfcmap -prep 0 -> no memory' '8 main rmfcmap 0 -> ok' '9 main rmvdisk 2 -> no memory' \
        '10 main read C 0 1 -> refused no such vdisk' >"$tree/printed"
    run_script run --explain "$room/session"
    is "--explain behind presets that wanted memory" "line 5, entry 10: C" "$(explained_words <"$room/err")"
}

# Of each explanation the line of the session and the entry, and the word over the caret.
explained_words() {
    awk '
        /^flashcopy: line / { sub(/^flashcopy: /, ""); sub(/:.*/, ""); told = $0 }
        match($0, /\^+$/) { print told ": " substr(before, RSTART, RLENGTH) }
        { before = $0 }
    '
}

# Each refusal of the examples is explained: with its line, a sentence, and but for long lines a caret.
every_refusal_explained() {
    local args name words
    for args in examples/*.args; do
        name=${args%.args}
        grep -q -- '-> refused' "$name.stdout" || continue
        mapfile -t words <"$args"
        cp -- "$name.stdout" "$tree/printed"
        run_script "${words[@]}" --explain "$top/$name"
        is "$name: refusals that are explained" "$(grep -c -- '-> refused' "$name.stdout")" \
            "$(grep -cE '^flashcopy: line [0-9]+, entry [0-9]+: refused ' "$room/err")"
        is "$name: refusals without a sentence" 0 "$(grep -cE '^    $' "$room/err")"
        is "$name: refusals without a caret" "$(grep -c -- '-> refused long line' "$name.stdout")" \
            "$(($(grep -c '^flashcopy: line' "$room/err") - $(grep -cE '^[[:blank:]]*\^+$' "$room/err")))"
    done
}

# At a terminal it is said how to end.
at_a_terminal() {
    cp -- examples/first-volume.stdout "$tree/printed"
    in_tree python3 -c '
import os, pty, subprocess
master, slave = pty.openpty()
ran = subprocess.Popen(["bin/flashcopy", "run"], stdin=slave, stdout=subprocess.DEVNULL, stderr=subprocess.PIPE)
os.write(master, b"mkvdisk -size 1\n\x04")
print(ran.communicate()[1].decode(), end="")
' >"$room/err" 2>&1
    holds "at a terminal it isn't said how to end" complains_of "Ctrl-D"
}

# Runs the tree's viewer, and leaves its output, its complaints and its status behind.
run_viewer_script() { # WORD..
    in_tree bin/fcview "$@" >"$room/out" 2>"$room/err"
    status=$?
}

# Words of bin/fcview that aren't in its grammar, a line each.
bad_viewer_words() {
    cat <<'END'
--at
--at x
--at -1
--at=
--at 18446744073709551616
--at 000000000000000000001
--at 1 --at 1
--at=1 --at=1
--svg
--svg --at 1
--svg a --svg b
--svg=a
-x
--
- -
traces/first-volume traces/first-volume
nofile
traces
try --at
try --svg
try nofile
build now
help me
--help me
--version 1
END
}

# ---- bin/fcview: its words, those that the program gets, what is built, and the files of drawings
viewing() {
    echo "== bin/fcview"
    local line words
    fresh_tree
    while IFS= read -r line; do
        read -ra words <<<"$line"
        run_viewer_script "${words[@]}" <traces/first-volume
        is "bin/fcview $line: status" 2 "$status"
        holds "bin/fcview $line: something was written" wrote_nothing
        holds "bin/fcview $line: not one line on standard error" complained_in_one_line
        holds "bin/fcview $line: something was built first" was_not_called
    done < <(bad_viewer_words)
    run_viewer_script --help
    is "bin/fcview --help: status" 0 "$status"
    holds "bin/fcview --help: it complained" complained_of_nothing
    for line in --at --svg try build --version; do
        holds "bin/fcview --help doesn't speak of $line" grep -qF -- "$line" "$room/out"
    done
    echo 'a drawing' >"$tree/printed"
    run_viewer_script --at=07 "$top/traces/torn"
    is "an unbuilt bin/fcview: status" 0 "$status"
    is "an unbuilt bin/fcview: what the kit was asked" "run --" "$(<"$tree/called")"
    is "the words that the viewer gets" "--at 07" "$(tail -n 1 -- "$tree/words")"
    holds "the trace that the viewer gets isn't the file's" cmp -s "$tree/taken" traces/torn
    is "bin/fcview" "a drawing" "$(<"$room/out")"
    rm -f -- "$tree/called"
    run_viewer_script <traces/first-volume
    holds "a built bin/fcview: it was built again" was_not_called
    holds "a built bin/fcview: it complained" complained_of_nothing
    holds "bin/fcview --version doesn't name the kit that built it" grep -q 'built with a-kit logic 0123$' <(in_tree bin/fcview --version)
    viewing_into_files
    viewing_that_ends
    fresh_tree
    run_viewer_script try --svg "$room/tried" --at 3 "$top/traces/torn"
    is "bin/fcview try: status" 0 "$status"
    is "bin/fcview try: what the kit was asked" "try -- --svg --at 3" "$(<"$tree/called")"
}

# The viewer's status is handed on, and said in one line.
viewing_that_ends() {
    local number
    for number in 2 3 4 5 6 7 9; do
        echo "$number" >"$tree/status"
        run_viewer_script <traces/first-volume
        is "the viewer ends with $number: the script's status" "$number" "$status"
        holds "the viewer ends with $number: not one line is said" complained_in_one_line
    done
}

# What the program prints behind lines `== NAME` goes into files of the folder, which is made.
viewing_into_files() {
    printf '%s\n' '== entry-3.svg' '<svg>' '</svg>' '== ../x.svg' '== sums.txt' moves room >"$tree/printed"
    run_viewer_script --svg "$room/made/for/it" <traces/first-volume
    is "bin/fcview --svg: status" 0 "$status"
    is "the words that the viewer gets of --svg" "--svg" "$(tail -n 1 -- "$tree/words")"
    holds "bin/fcview --svg: something was written" wrote_nothing
    is "bin/fcview --svg: the files" "entry-3.svg sums.txt" "$(cd -- "$room/made/for/it" && echo *)"
    is "bin/fcview --svg: a drawing" $'<svg>\n</svg>\n== ../x.svg' "$(<"$room/made/for/it/entry-3.svg")"
    is "bin/fcview --svg: the sums" $'moves\nroom' "$(<"$room/made/for/it/sums.txt")"
    run_viewer_script --svg "$top/README.md" <traces/first-volume
    is "bin/fcview --svg into a file: status" 2 "$status"
}

scripts() {
    make_tree
    words_of_script
    help_and_version
    help_agrees_with_program
    showing
    building
    statuses
    trying
    looking_back
    viewing
    rm -rf -- "$tree"
}
