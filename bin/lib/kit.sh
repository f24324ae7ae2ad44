# shellcheck shell=bash disable=SC2154
# The proved programs: with which kit one was built and from which sources, whether it is there, and how it is built.
# It is sourced, not run, with `here` set to the top of the repository and `say` defined. The program that is meant is
# flashcopy, until `use_program` names another.

# The logic that the proofs are claimed in (.ci/run compares it with the one at hand), and the kit that proved all of
# them last. Another kit of the same logic proves the same.
logic=dac8208d650f15bf
proved_last_with=rattle-kit-13f

# How long the first build takes, roughly, on four free processors.
build_time="half an hour or more"

# From here on this program is meant. The kit runs what it has built, so there are words and an input for a run that
# ends well.
use_program() { # NAME [WORD] [INPUT]
    crate=$here/crates/$1
    program=$crate/out/$1
    stamp=$crate/out/$1.stamp
    first_word=${2-}
    first_input=${3-/dev/null}
}
use_program flashcopy run

has_kit() { command -v rt >/dev/null; }

# The crates that the program stands on, and itself: crates.txt has a line 'NAME: USED..' for each, lowest first.
crates_of_program() {
    awk -F: -v program="${crate##*/}" '
        /^#/ || NF < 2 { next }
        { name[++n] = $1; used[$1] = $2 }
        END {
            wanted[program] = 1
            for (i = n; i >= 1; i--) {
                if (!(name[i] in wanted)) continue
                print name[i]
                count = split(used[name[i]], words, " ")
                for (k = 1; k <= count; k++) wanted[words[k]] = 1
            }
        }' "$here/crates.txt"
}

# A hash of all that the program is proved and built from.
hash_of_sources() {
    local name
    (
        cd -- "$here" || exit 1
        {
            [[ ! -e HANDLES ]] || printf '%s\0' HANDLES
            while IFS= read -r name; do
                find "crates/$name/src" "crates/$name/specs" "crates/$name/proofs" -type f -print0 2>/dev/null
            done < <(crates_of_program)
        } | LC_ALL=C sort -z | xargs -0 sha256sum --
        # which crates use which
        crates_of_program | while IFS= read -r name; do grep -- "^$name:" crates.txt; done
    ) | sha256sum | cut -d ' ' -f 1
}

# The kit's one line, or nothing where there is no kit.
kit_at_hand() { has_kit && rt version 2>/dev/null; }

# What the program was built from, and with: two lines.
stamp_program() { printf '%s\n%s\n' "$(hash_of_sources)" "$(kit_at_hand)" >"$stamp"; }
stamped_hash() { sed -n 1p -- "$stamp" 2>/dev/null; }
stamped_kit() { sed -n 2p -- "$stamp" 2>/dev/null; }

# Whether the program is there, built from these sources and with the kit at hand. Where there is no kit, nothing could
# be built anew, and the sources alone are looked at.
is_built() {
    [[ -x $program && -f $stamp && $(stamped_hash) == "$(hash_of_sources)" ]] || return 1
    ! has_kit || [[ $(stamped_kit) == "$(kit_at_hand)" ]]
}

# Why there is something to build.
say_why_built() {
    if [[ ! -x $program ]]; then
        say "the program isn't built. Proving and building it, once, takes $build_time"
    elif [[ ! -f $stamp ]]; then
        say "it isn't known what the program was built from: what isn't proved yet is proved and built now"
    elif [[ $(stamped_hash) != "$(hash_of_sources)" ]]; then
        say "the sources have changed: what they touch is proved and built anew"
    else
        say "the kit was $(stamped_kit), and is $(kit_at_hand): all is proved and built anew, in $build_time"
    fi
}

# How often it is said how far the proof is.
progress_seconds=60

# How many crates the log says were proved.
count_proved() { grep -c '^logic=proved ' -- "$1" 2>/dev/null; }

# Says each minute how many crates are proved, as long as the process runs. What was proved before isn't proved again,
# and isn't counted.
say_progress() { # PROCESS LOG
    local seconds=0 all
    all=$(crates_of_program | wc -l)
    while kill -0 "$1" 2>/dev/null; do
        sleep 1
        seconds=$((seconds + 1))
        ((seconds % progress_seconds)) ||
            say "$((seconds / 60)) min: $(count_proved "$2") crates proved so far, of at most $all"
    done
}

# Proves and builds the program. It lands in the crate's out/, which is never committed.
build() {
    local log builder status
    if ! has_kit; then
        say "the program isn't built, and there is no command rt to build it with (the Rattle kit isn't on the path)"
        return 1
    fi
    say_why_built
    log=$(mktemp --suffix=".${crate##*/}-build") || return 1
    say "the log is $log"
    # what the run behind the build prints goes into the log
    (cd -- "$crate" && exec rt run -- ${first_word:+"$first_word"}) <"$first_input" >"$log" 2>&1 &
    builder=$!
    trap 'kill "$builder" 2>/dev/null; exit 130' INT TERM
    say_progress "$builder" "$log"
    wait "$builder"
    status=$?
    trap - INT TERM
    if ((status == 0)) && [[ -x $program ]]; then
        stamp_program
        rm -f -- "$log"
        say "built"
        return 0
    fi
    tail -n 20 -- "$log" >&2
    say "the program couldn't be proved and built; the whole log is $log"
    return 1
}

# The version, what is claimed, and what the program at hand was built with.
version() {
    printf '%s 0.1\n' "${crate##*/}"
    printf 'claimed: proved in logic %s, last with %s\n' "$logic" "$proved_last_with"
    if [[ ! -x $program ]]; then
        printf 'the program: not built\n'
    elif [[ ! -f $stamp ]]; then
        printf 'the program: built, and not known with which kit\n'
    else
        printf 'the program: proved and built with %s\n' "$(stamped_kit)"
        [[ $(stamped_hash) == "$(hash_of_sources)" ]] || printf 'the sources have changed since\n'
    fi
}
