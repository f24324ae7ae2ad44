# shellcheck shell=bash disable=SC2154
# `show`: the examples, and one of them beside the history that it must print. It is sourced, not run, with `here` set to
# the top of the repository and `say` defined.

# The names of the examples, one a line.
example_names() {
    local args
    for args in "$here"/examples/*.args; do
        basename -- "$args" .args
    done
}

# What an example shows, as the comment says that is its first line.
about_example() { # NAME
    sed -n '1s/^# *//p' -- "$here/examples/$1"
}

list_examples() {
    local name
    while IFS= read -r name; do
        printf '%-22s %s\n' "$name" "$(about_example "$name")"
    done < <(example_names)
}

# Each line of the session, and beside it the entries that answer it.
show_example() { # NAME
    local file=$here/examples/$1
    if [[ ! -f $file || ! -f $file.args || ! -f $file.stdout ]]; then
        say "there is no example $1; bin/flashcopy show lists them"
        return 2
    fi
    printf '%s\n' "bin/flashcopy $(paste -s -d ' ' -- "$file.args") examples/$1" \
        "prints what stands behind the bars (recorded in examples/$1.stdout):" ''
    LC_ALL=C awk -v history="$file.stdout" -f "$here/bin/lib/lines.awk" -f "$here/bin/lib/show.awk" "$file"
}

show() { # [NAME]
    if [[ -z $1 ]]; then
        list_examples
    else
        show_example "$1"
    fi
}
