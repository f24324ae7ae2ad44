# shellcheck shell=bash disable=SC2154
# What is checked of the drawings of the built viewer: those of drawings/ were worked out by another program, for the traces of the
# same names. It is sourced, not run, at the top of the repository, beside counting.sh, program.sh and verdicts.sh, with put_into_files
# of bin/lib/view.sh.

# The built viewer.
viewer=$top/crates/fcview/out/fcview

# How many drawings there are at the least, in the folder and in the pages.
least_drawings=22
least_drawings_at=4
least_drawings_in_chains=7

# Runs the built viewer on what comes in, and leaves its output and its status behind.
run_viewer_on() { # WORD..
    timeout "$most_seconds" "$viewer" "$@" >"$room/out" 2>"$room/err"
    status=$?
}

# The lines of the first so many entries of a trace, or of all.
entry_lines() { # TRACE [COUNT]
    awk -v count="${2--1}" '
        $0 == "session" && begins { exit }
        begins && (count < 0 || number++ < count) { print }
        { begins = (NR == 1 || $0 == ".") }
    ' "$1"
}

# The lines of entries in a drawing.
drawn_lines() { grep -aE '^[0-9]+ ' -- "$1"; }

# ---- without any proof: compiled with checks of memory
begin_drawings() {
    local file name cases=$room/cases
    mkdir -- "$cases"
    for file in drawings/*; do
        name=${file#drawings/}
        cp -- "traces/${name%.at-*}" "$cases/${name/./-}"
        cp -- "$file" "$cases/${name/./-}.stdout"
        : >"$cases/${name/./-}.args"
        [[ $name != *.at-* ]] || printf '%s\n' --at "${name##*.at-}" >"$cases/${name/./-}.args"
    done
    begin_try fcview "$cases"
}
drawings_unproved() {
    echo "== drawings, compiled with checks of memory"
    end_try drawings "$((least_drawings + least_drawings_at))" fcview
}

# ---- the drawings of the folder: of the traces there and of those that the program prints, with their sessions or without
drawings_kept() {
    echo "== drawings of traces"
    local file name words count=0 count_at=0
    for file in drawings/*; do
        name=${file#drawings/}
        if [[ $name == *.at-* ]]; then
            run_viewer_on --at "${name##*.at-}" <"traces/${name%.at-*}"
            count_at=$((count_at + 1))
        else
            run_viewer_on <"traces/$name"
            count=$((count + 1))
        fi
        holds "the drawing of $name differs" cmp -s "$room/out" "$file"
        is "the drawing of $name: status" 0 "$status"
        holds "the drawing of $name: it complained" complained_of_nothing
        [[ $name != *.at-* ]] || continue
        mapfile -t words <"examples/$name.args"
        "$program" "${words[@]}" --trace <"examples/$name" >"$room/trace"
        behind_a_trace "examples/$name" >>"$room/trace"
        run_viewer_on <"$room/trace"
        holds "the drawing of $name, with its session, differs" cmp -s "$room/out" "$file"
        is "the drawing of $name, with its session: status" 0 "$status"
    done
    is_at_least "drawings" "$least_drawings" "$count"
    is_at_least "drawings of one entry" "$least_drawings_at" "$count_at"
}

# ---- all traces: each entry has its line, and one alone is drawn with its number
drawings_of_all() {
    echo "== drawings of all traces"
    local trace name entries
    for trace in traces/*; do
        name=${trace#traces/}
        run_viewer_on <"$trace"
        is "the drawing of the trace of $name: status" 0 "$status"
        holds "the drawing of the trace of $name: its entries differ" cmp -s <(drawn_lines "$room/out") <(entry_lines "$trace")
        holds "the drawing of the trace of $name: no sums" grep -qx room "$room/out"
        entries=$(grep -cx '[.]' -- "$trace")
        run_viewer_on --at "$((entries - 1))" <"$trace"
        is "the last entry of $name, drawn: status" 0 "$status"
        holds "the last entry of $name, drawn: its line differs" cmp -s <(drawn_lines "$room/out") <(entry_lines "$trace" | tail -n 1)
        run_viewer_on --at "$entries" <"$trace"
        is "the entry behind the last of $name, drawn: status" 0 "$status"
        holds "the entry behind the last of $name, drawn: something was written" wrote_nothing
    done
}

# The number of the first entry that isn't right, among those that are whole before a byte; nothing where there is none.
wrong_before() { # BYTES TRACE
    head -c "$1" -- "$2" | awk 'NR == 1 { print; next } { kept = kept $0 "\n" } $0 == "." { printf "%s", kept; kept = "" }' >"$room/front"
    "$program" check <"$room/front" | sed -n 's/^no //p'
}

# The last line of a drawing, by the verdict on its trace. A view stops at the first wrong entry; a check reads on, and says where
# there is no trace.
ending_of() { # VERDICT TRACE
    local wrong=
    case $1 in
        yes\ *) return ;;
        no\ *) wrong=${1#no } ;;
        *) wrong=$(wrong_before "${1#malformed }" "$2") ;;
    esac
    if [[ -n $wrong ]]; then
        echo "wrong: entry $wrong isn't right after those before it"
    else
        echo "malformed: no trace goes on at byte ${1#malformed }"
    fi
}

# ---- traces that were changed: drawn up to the first entry that isn't right, or can't be read
drawings_of_tampered() {
    echo "== drawings of traces that were changed"
    local trace edit verdict ending count=0
    while IFS='|' read -r trace edit verdict; do
        count=$((count + 1))
        edited "$edit" <"traces/$trace" >"$room/tampered"
        verdict=$(verdict_of "$verdict" "$room/tampered")
        ending=$(ending_of "$verdict" "$room/tampered")
        run_viewer_on <"$room/tampered"
        is "$trace, $edit, drawn: status" "$(status_of "$verdict")" "$status"
        holds "$trace, $edit, drawn: it complained" complained_of_nothing
        if [[ -z $ending ]]; then
            holds "$trace, $edit, drawn: its entries differ" cmp -s <(drawn_lines "$room/out") <(entry_lines "$room/tampered")
        else
            is "$trace, $edit, drawn: the last line" "$ending" "$(tail -n 1 -- "$room/out")"
            [[ $ending != wrong* ]] || holds "$trace, $edit, drawn: its entries differ" \
                cmp -s <(drawn_lines "$room/out") <(entry_lines "$room/tampered" "$(tr -dc 0-9 <<<"$ending")")
        fi
    done < <(rows_of verdicts/tampered)
    is_at_least "traces that were changed, drawn" "$least_tampered" "$count"
}

# Whether a file is well-formed XML, by whatever is at hand.
is_xml() { # FILE
    if command -v xmllint >/dev/null; then
        xmllint --noout "$1" 2>>"$room/err"
    else
        python3 -c 'import sys, xml.dom.minidom; xml.dom.minidom.parse(sys.argv[1])' "$1" 2>>"$room/err"
    fi
}

# ---- as SVG: a file for each drawing of chains, well-formed, 1,000 pixels wide and with a title; the sums in a file of their own
drawings_as_svg() {
    echo "== drawings as SVG"
    local name folder=$room/drawn
    for name in cascade nights-work groups torn; do
        rm -rf -- "$folder" && mkdir -- "$folder"
        run_viewer_on <"traces/$name"
        cp -- "$room/out" "$room/as_text"
        run_viewer_on --svg <"traces/$name"
        is "$name as SVG: status" 0 "$status"
        put_into_files "$folder" <"$room/out" >"$room/rest"
        holds "$name as SVG: something stands before the first file" test ! -s "$room/rest"
        are_pictures "$name" "$folder" \
            "$(awk '/^[0-9]+ / { drawn = 0 } /^  chain / && !drawn++ { n++ } END { print n + 0 }' "$room/as_text")"
        holds "$name as SVG: the sums differ" cmp -s <(sed -n '/^moves$/,$p' "$room/as_text") "$folder/sums.txt"
    done
    run_viewer_on --at 11 --svg <traces/cascade
    put_into_files "$folder" <"$room/out"
    holds "docs/chains.svg isn't the drawing of entry 11 of the cascade" cmp -s docs/chains.svg "$folder/entry-11.svg"
    edited '8s/5a/5b/' <traces/first-volume >"$room/tampered"
    run_viewer_on --svg <"$room/tampered"
    put_into_files "$folder" <"$room/out"
    is "a changed trace as SVG: how it ends" "wrong: entry 2 isn't right after those before it" "$(<"$folder/end.txt")"
    # a report's delimiter may be a mark that XML takes for its own
    trace_of_marks >"$room/trace"
    run_viewer_on --svg --at 1 <"$room/trace"
    is "a delimiter of XML as SVG: status" 0 "$status"
    put_into_files "$folder" <"$room/out"
    holds "a delimiter of XML as SVG isn't well-formed" is_xml "$folder/entry-1.svg"
}

# So many pictures of a trace stand in a folder, each well-formed, 1,000 pixels wide and with a title.
are_pictures() { # WHAT FOLDER COUNT
    local file count=0
    for file in "$2"/*.svg; do
        count=$((count + 1))
        holds "$1 as SVG: ${file##*/} isn't well-formed" is_xml "$file"
        holds "$1 as SVG: ${file##*/} isn't 1,000 pixels wide" grep -q '<svg [^>]*width="1000"' "$file"
        holds "$1 as SVG: ${file##*/} has no title" grep -q '<title>.*</title>' "$file"
    done
    is "$1 as SVG: drawings" "$3" "$count"
}

# The trace of a report whose delimiter is an angle bracket.
trace_of_marks() {
    printf '%s\n' "mkvdisk -size 64 -unit kb" "lsfcmap -delim <" | "$program" run --grain 64 --trace
}

# The words that are in the viewer's grammar, a line each, and words that aren't.
good_words_of_viewer() {
    cat <<'END'

--at 0
--at=0
--at 18446744073709551615
--at 00000000000000000001
--svg
--svg --at 1
--at 1 --svg
--at=1 --svg
END
}

bad_words_of_viewer() {
    cat <<'END'
-
--
x
view
--at
--at x
--at -1
--at +1
--at=
--at 18446744073709551616
--at 000000000000000000001
--at 1 2
--at 1 --at 1
--at=1 --at 1
--at --svg
--svg --svg
--svg=x
--svg x
-- --svg
--svg --
--at 1 --
--a 1
--At 1
-at 1
-a 1
-s
--sv
--help
-h
--version
help
--at 0x1
--at 1.0
END
}

# The viewer refuses the words of a call, and writes nothing.
viewer_tells_usage() { # WORD..
    local shown
    printf -v shown '%q ' "$@"
    run_viewer_on "$@" <traces/first-volume
    is "the viewer's words ${shown% }: status" 2 "$status"
    holds "the viewer's words ${shown% }: something was written" wrote_nothing
}

# ---- the viewer's words
words_of_viewer() {
    echo "== the viewer's words"
    local line words
    while IFS= read -r line; do
        read -ra words <<<"$line"
        run_viewer_on ${words[@]+"${words[@]}"} <traces/first-volume
        is "the viewer's words '$line': status" 0 "$status"
    done < <(good_words_of_viewer)
    while IFS= read -r line; do
        read -ra words <<<"$line"
        viewer_tells_usage "${words[@]}"
    done < <(bad_words_of_viewer)
    # empty words, and words that aren't UTF-8
    viewer_tells_usage ""
    viewer_tells_usage --at ""
    viewer_tells_usage --svg ""
    viewer_tells_usage --at " 1"
    viewer_tells_usage $'\xff'
    viewer_tells_usage --at $'\xff'
    viewer_tells_usage $'--at=1\x80'
    { "$viewer" walk; cat; } <traces/first-volume >"$room/out" 2>"$room/err"
    holds "usage of the viewer took bytes of its input" cmp -s "$room/out" traces/first-volume
}

# ---- limits, and standard input and output that fail
drawings_not_whole() {
    echo "== drawings that aren't whole"
    trace_of_faults 262144 >"$room/trace"
    run_viewer_on <"$room/trace"
    is "262,144 entries, drawn: status" 0 "$status"
    holds "262,144 entries, drawn: their lines differ" cmp -s <(drawn_lines "$room/out") <(entry_lines "$room/trace")
    printf x >>"$room/trace"
    run_viewer_on <"$room/trace"
    is "a byte behind entry 262,144, drawn: status" 6 "$status"
    is "a byte behind entry 262,144: entries that are drawn" 262144 "$(drawn_lines "$room/out" | wc -l)"
    rm -f -- "$room/trace"

    run_viewer_on < <(one_line 67108864)
    is "67,108,864 bytes that are no trace, drawn" "malformed: no trace goes on at byte 0" "$(<"$room/out")"
    run_viewer_on < <(one_line 67108865)
    is "67,108,865 bytes, drawn: status" 7 "$status"
    holds "67,108,865 bytes, drawn: something was written" wrote_nothing

    run_viewer_on <"$room"
    is "a drawing, and standard input fails: status" 3 "$status"
    holds "a drawing, and standard input fails: something was written" wrote_nothing
    if [[ -c /dev/full && -w /dev/full ]]; then
        timeout "$most_seconds" "$viewer" <traces/one-mapping >/dev/full 2>"$room/err"
        is "a drawing, and standard output fails: status" 4 $?
        timeout "$most_seconds" "$viewer" --svg <traces/one-mapping >/dev/full 2>"$room/err"
        is "a drawing as SVG, and standard output fails: status" 4 $?
    fi
}

# ---- the drawings in a page: a block behind a line that ends in `drawings/NAME`: has lines of that drawing, in their order
drawings_in_page() { # PAGE LEAST
    local line name='' count=0
    while IFS= read -r line; do
        case $line in
            'drawing '*)
                name=${line#* }
                : >"$room/block"
                ;;
            '|'*) printf '%s\n' "${line#|}" >>"$room/block" ;;
            end)
                count=$((count + 1))
                if [[ -f drawings/$name ]]; then
                    holds "$1: a drawing isn't that of drawings/$name" stands_in_order <(sed '1i..' "$room/block"; echo ..) "drawings/$name"
                else
                    fail "$1: there is no drawings/$name"
                fi
                ;;
        esac
    done < <(awk '
        name != "" && /^    / {
            if (!inside) print "drawing", name
            inside = 1
            print "|" substr($0, 5)
            next
        }
        /^$/ { next }
        inside { print "end"; inside = 0; name = "" }
        /`drawings\/[a-z0-9.-]+`[^`]*:$/ {
            name = $0
            sub(/.*`drawings\//, "", name)
            sub(/`.*/, "", name)
        }
        END { if (inside) print "end" }
    ' "$1")
    is_at_least "$1: drawings that it shows" "$2" "$count"
}

drawings_in_pages() {
    echo "== drawings in README.md and docs/"
    drawings_in_page README.md 1
    drawings_in_page docs/CHAINS.md "$least_drawings_in_chains"
    drawings_in_page docs/MANUAL.md 1
}

# ---- the script over the proved viewer: it runs it, hands its status on, says in a line what it means, and makes the files
script_and_viewer() {
    echo "== bin/fcview over the proved viewer"
    bin/fcview traces/cascade >"$room/out" 2>"$room/err"
    is "bin/fcview on traces/cascade: status" 0 $?
    holds "bin/fcview on traces/cascade: the drawing differs" cmp -s "$room/out" drawings/cascade
    holds "bin/fcview on traces/cascade: it complained" complained_of_nothing
    bin/fcview --svg "$room/made/here" --at 11 <traces/cascade >"$room/out" 2>"$room/err"
    is "bin/fcview --svg: status" 0 $?
    holds "bin/fcview --svg: something was written" wrote_nothing
    holds "bin/fcview --svg: the file differs" cmp -s "$room/made/here/entry-11.svg" docs/chains.svg
    bin/fcview <examples/cascade >"$room/out" 2>"$room/err"
    is "bin/fcview on no trace: status" 9 $?
    is "bin/fcview on no trace: lines on standard error" 1 "$(wc -l <"$room/err")"
}

drawings() {
    if [[ ! -x $viewer ]]; then
        fail "the gate of the proofs left no viewer, so nothing was drawn"
        return
    fi
    drawings_kept
    drawings_of_all
    drawings_of_tampered
    drawings_as_svg
    words_of_viewer
    drawings_not_whole
}
