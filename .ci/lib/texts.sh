# shellcheck shell=bash disable=SC2154
# The texts: what docs/ and README.md show of sessions is what examples/ has, and what is claimed of the kit is so. It is
# sourced, not run, at the top of the repository.

# A session without its comments.
session_lines() { grep -v '^#' -- "$1"; }

# The history of an example without the number and actor of each entry.
entries_alone() { sed 's/^[0-9]* [a-z0-9_.-]* //' "$1"; }

# ---- the manual's table: each entry that it shows stands in the history of the session that it names
manual_table() {
    echo "== the manual's table of entries"
    local row entry name count=0 headings
    headings=$(grep -c '^## An example of each$' docs/MANUAL.md)
    is "docs/MANUAL.md: headings 'An example of each'" 1 "$headings"
    while IFS= read -r row; do
        if [[ $row =~ ^\|\ \`(.*)\`\ \|\ \`([a-z0-9-]+)\`\ \|$ ]]; then
            entry=${BASH_REMATCH[1]} name=${BASH_REMATCH[2]}
            count=$((count + 1))
            if [[ -f examples/$name.stdout ]] && grep -qxF -- "$entry" <(entries_alone "examples/$name.stdout"); then
                pass
            else
                fail "docs/MANUAL.md: '$entry' doesn't stand in examples/$name.stdout"
            fi
        fi
    done < <(sed -n '/^## An example of each$/,$p' docs/MANUAL.md)
    is_at_least "docs/MANUAL.md: entries in its table" 185 "$count"
}

# The blocks of a page that a line ending in '`examples/NAME`:' or 'prints:' announces, as lines
#     session NAME / history NAME, then the block's lines behind a bar each, then 'end'
announced_blocks() { # PAGE
    awk '
        kind != "" && /^    / {
            if (!inside) print kind, name
            inside = 1
            print "|" substr($0, 5)
            next
        }
        /^$/ { next }
        inside { print "end"; inside = 0; kind = "" }
        /`examples\/[a-z0-9-]+`[^`]*:$/ {
            name = $0
            sub(/.*`examples\//, "", name)
            sub(/`.*/, "", name)
            kind = "session"
        }
        /prints:$/ { kind = "history" }
        END { if (inside) print "end" }
    ' "$1"
}

# Whether the lines stand in a file in their order: after a line '..' the next may stand anywhere further on, and else
# each directly behind the one before.
stands_in_order() { # FILE-OF-LINES FILE
    awk -v file="$2" '
        BEGIN { while ((getline line < file) > 0) have[++n] = line; at = 0; loose = 0; wrong = 0 }
        $0 == ".." { loose = 1; next }
        {
            at++
            if (loose) while (at <= n && have[at] != $0) at++
            if (at > n || have[at] != $0) { wrong = 1; exit }
            loose = 0
        }
        END { exit wrong || (!loose && at != n) }
    ' "$1"
}

# ---- the sessions and histories that a page shows are those of examples/
page_blocks() { # PAGE LEAST
    local line kind='' name='' count=0
    while IFS= read -r line; do
        case $line in
            'session '* | 'history '*)
                kind=${line%% *} name=${line#* }
                : >"$room/block"
                ;;
            '|'*) printf '%s\n' "${line#|}" >>"$room/block" ;;
            end)
                count=$((count + 1))
                if [[ ! -f examples/$name ]]; then
                    fail "$1: there is no examples/$name"
                elif [[ $kind == session ]]; then
                    holds "$1: the session isn't that of examples/$name" \
                        cmp -s <(session_lines "$room/block") <(session_lines "examples/$name")
                else
                    holds "$1: the history isn't that of examples/$name" stands_in_order "$room/block" "examples/$name.stdout"
                fi
                ;;
        esac
    done < <(announced_blocks "$1")
    is_at_least "$1: sessions and histories that it shows" "$2" "$count"
}

pages() {
    echo "== sessions in README.md and docs/"
    page_blocks README.md 2
    page_blocks docs/MANUAL.md 16
    page_blocks docs/RECIPES.md 20
}

# ---- the theorems that docs/READING.md prints are those that stand in specs/
theorem_printed() {
    echo "== the theorems in docs/READING.md"
    local line file='' count=0
    while IFS= read -r line; do
        if [[ $line =~ \(\`([a-z_]+/specs/[A-Za-z]+)\`\):$ ]]; then
            file=crates/${BASH_REMATCH[1]%%/*}/${BASH_REMATCH[1]#*/}.antt
        elif [[ $line == code:?* ]]; then
            count=$((count + 1))
            holds "docs/READING.md: '${line#code:}' doesn't stand in $file" grep -qxF -- "${line#code:}" "$file"
        fi
    done < <(awk '/^```antt$/ { inside = 1; next } /^```$/ { inside = 0 } { print (inside ? "code:" : "") $0 }' docs/READING.md)
    is_at_least "docs/READING.md: lines of the theorems" 80 "$count"
}

# The anchors of a page's headings, one a line.
anchors_of() { # PAGE
    sed -n 's/^##* //p' -- "$1" | tr '[:upper:]' '[:lower:]' | sed -e 's/[^a-z0-9 _-]//g' -e 's/ /-/g'
}

# ---- each link of a page leads to a file that is there, or to one of its headings
links() {
    echo "== links of the pages"
    local page link file count=0
    for page in README.md docs/*.md; do
        while IFS= read -r link; do
            count=$((count + 1))
            file=${link%%#*}
            if [[ -n $file && ! -e $(dirname -- "$page")/$file ]]; then
                fail "$page: there is no $file"
            elif [[ $link == '#'* ]] && ! grep -qxF -- "${link#\#}" <(anchors_of "$page"); then
                fail "$page: it has no heading for $link"
            else
                pass
            fi
        done < <(grep -o '](\([^)]*\))' -- "$page" | sed -e 's/^](//' -e 's/)$//' | grep -v '://')
    done
    is_at_least "links" 40 "$count"
}

# ---- the logic that README.md and the script claim is that of the kit at hand
claims() {
    echo "== what is claimed of the kit"
    local at_hand claimed
    at_hand=$(rt version | sed -n 's/.* logic \([0-9a-f]*\)$/\1/p')
    claimed=$(sed -n 's/^logic=//p' bin/lib/kit.sh)
    is "the logic that bin/lib/kit.sh claims" "$at_hand" "$claimed"
    holds "README.md doesn't claim the logic $at_hand" grep -qF -- "logic $at_hand" README.md
}
