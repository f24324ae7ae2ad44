# shellcheck shell=bash disable=SC2154
# Blocks of actors in the built program. It is sourced, not run, at the top of the repository, behind counting.sh.

# A block of five actors, over two volumes and a prepared group: two hosts, an administrator who starts the group, a copier and a
# cleaner. The line behind the block reads from the copy. Its trace beside it is one of those that may come: the write stands before
# the start.
five_actors=verdicts/blocks/five-actors

# Whether a text is one of the histories that this session may have: numbers go up by one, each actor's entries stand in its order,
# no grain is copied twice or in another lane than its own or before the start, all grains are copied where all turns come behind
# it, and the copy has the write exactly if that stands before the start.
may_come() { # HISTORY
    awk '
        { reply = $0; sub(/^[0-9]+ [^ ]+ /, "", reply); told[$2] = told[$2] reply ";" }
        $1 != NR - 1 { wrong = 1 }
        $2 == "h1" && $3 == "write" { written = NR }
        $2 == "adm" { started = NR }
        $2 == "h1" && $3 == "write" && started { moved[0]++ }
        $2 == "c" {
            if ($4 != (turns++ % 4)) wrong = 1
            if ($6 == "moved") {
                if (!started || $7 != 0 || moved[$8]++ || $8 % 4 != $4 || $8 > 7) wrong = 1
            } else if ($6 == "idle") {
                if (started && (!moved[$4] || !moved[$4 + 4])) wrong = 1
            } else wrong = 1
        }
        END {
            if (NR != 20 || turns != 8 || !written || !started) wrong = 1
            if (told["h1"] != "write 0 0 1 22 -> ok;read 0 0 1 -> data 512*22;") wrong = 1
            if (told["h2"] != "read 0 128 1 -> data 512*00;") wrong = 1
            if (told["adm"] != "startfcconsistgrp 1 -> ok;") wrong = 1
            if (told["k"] != "cleanturn 0 -> idle;cleanturn 1 -> idle;") wrong = 1
            if (reply != "read 1 0 1 -> data 512*" (written < started ? "22" : "00")) wrong = 1
            exit wrong
        }
    ' "$1"
}

# The history of a trace: without its first line, the lines that begin with `+`, and the points.
history_of() { # TRACE
    sed -e 1d -e '/^+/d' -e '/^[.]$/d' -- "$1"
}

# Changes of the history of five actors, of which none may come: scripts of sed.
wrong_histories() {
    cat <<'END'
$ s/22$/00/
$ d
6 s/22/23/
7 s/ h2 / h1 /
9 s/0 0$/0 4/
9 s/moved.*/idle/
13 s/^12 k cleanturn 1/12 k cleanturn 2/
16 s/0 4$/0 0/
6 s/.*/5 adm startfcconsistgrp 1 -> ok/; 8 s/.*/7 h1 write 0 0 1 22 -> ok/
END
}

# ---- what is said of histories is so of those that were worked out by hand
blocks_by_hand() {
    echo "== histories of a block, told by hand"
    local change
    history_of "$five_actors" >"$room/told"
    holds "a history that may come is said not to" may_come "$room/told"
    while IFS= read -r change; do
        sed -e "$change" "$room/told" >"$room/changed"
        if may_come "$room/changed"; then fail "a history that can't come is said to: $change"; else pass; fi
    done < <(wrong_histories)
}

# Whether all entries but the first are reads by one of the two hosts, and all numbers go up by one.
are_reads_of_hosts() { # HISTORY
    awk '
        $1 != NR - 1 { wrong = 1 }
        NR > 1 && ($2 !~ /^h[12]$/ || $0 !~ / read 0 0 1 -> data 512\*00$/ || ++count[$2] > 131072) { wrong = 1 }
        END { exit wrong }
    ' "$1"
}

# A session drawn by a number: five volumes, eight mappings, three of them in a group, and twelve blocks of up to sixteen hosts
# and administrators. Behind each block a volume is read, and a second passes.
session_of_many() { # NUMBER
    awk -v number="$1" '
        function below(n) { return int(rand() * n) }
        function host_line() {
            if (below(5) < 2) printf "read V%d %d %d\n", below(5), below(520), 1 + below(below(5) ? 8 : 200)
            else printf "write V%d %d %d %02x\n", below(5), below(520), 1 + below(below(5) ? 8 : 200), below(256)
        }
        function admin_line(    map) {
            map = below(10)
            split("startfcmap -prep -restore |startfcmap -prep |stopfcmap -force |stopfcmap |stopfcmap -split |" \
                "rmfcmap -force |prestartfcmap |lsfcmapprogress -delim : |lsfcmapdependentmaps ", on_map, "|")
            split("startfcconsistgrp -prep -restore g|stopfcconsistgrp -force g|lsfcmap -delim :|frob", others, "|")
            if (below(10) < 7) print on_map[1 + below(9)] map
            else if (below(4)) print others[1 + below(4)]
            else print "mkfcmap -source V" below(5) " -target V" below(5)
        }
        BEGIN {
            srand(number)
            for (v = 0; v < 5; v++) print "mkvdisk -name V" v " -size 256 -unit kb"
            print "mkfcconsistgrp -name g"
            split("0 1 -incremental|1 0 -incremental|1 2 -copyrate 0|2 3 -copyrate 30|0 3 -copyrate 100|" \
                "0 4 -consistgrp g|1 3 -consistgrp g -copyrate 0|3 2 -consistgrp g", maps, "|")
            for (m = 1; m <= 8; m++)
                print "mkfcmap -source V" substr(maps[m], 1, 1) " -target V" substr(maps[m], 3, 1) substr(maps[m], 4)
            for (block = 0; block < 12; block++) {
                print "together"
                for (actor = 1 + below(16); actor > 0; actor--) {
                    is_host = below(3)
                    print "actor x" actor (is_host ? " host" : " admin")
                    for (lines = below(5); lines > 0; lines--) if (is_host) host_line(); else admin_line()
                }
                print "end"
                print "read V" below(5) " 100 200"
                print "advance -seconds 1"
            }
        }'
}

# What the entries of a history ask, as lines of one after the other: an unread line as one that nobody knows, and what seconds
# bring by itself left out.
lines_of_entries() { sed -n -e '/ -> /!d' -e 's/^[0-9]* [^ ]* //' -e 's/ -> .*//' -e 's/^-$/frob/' -e '/^copy /d' -e '/^clean /d' -e p "$1"; }

# A history without numbers and actors, and without the faults of unread lines.
answers_alone() { sed -e 's/^[0-9]* [^ ]* //' -e 's/^- -> .*/-/' "$1"; }

# ---- what is asked at once is answered as it is one after the other, in the order of the entries
blocks_one_after_the_other() {
    echo "== what blocks were answered, asked one after the other"
    local number
    for ((number = 1; number <= 20; number++)); do
        run_program run --grain 64 < <(session_of_many "$number")
        is "blocks of many actors, session $number: status" 0 "$status"
        answers_alone "$room/out" >"$room/at_once"
        lines_of_entries "$room/out" >"$room/lines"
        run_program run --grain 64 <"$room/lines"
        answers_alone "$room/out" >"$room/by_turns"
        holds "blocks of many actors, session $number: one after the other the answers differ" \
            cmp -s "$room/at_once" "$room/by_turns"
    done
    is_at_least "blocks of many actors: lines of the last session" 200 "$(wc -l <"$room/lines")"
}

blocks() {
    echo "== blocks of actors"
    local round
    for ((round = 1; round <= 20; round++)); do
        run_program run --grain 64 <"$five_actors.session"
        is "a block of five actors, run $round: status" 0 "$status"
        if may_come "$room/out"; then
            pass
        else
            fail "a block of five actors, run $round: its history can't be"
            cat -- "$room/out"
        fi
    done

    run_program run --grain 64 < <(printf '%s\n' "mkvdisk -name A -size 1" together "actor h host" "write A 0 1 22" "end now")
    is "input that ends inside a block: status" 8 "$status"
    is "input that ends inside a block" "0 main mkvdisk -name A -size 1 -> Virtual Disk, id [0], successfully created" \
        "$(<"$room/out")"

    # two hosts who ask for one entry more than a history has
    run_program run --grain 64 < <(
        printf '%s\n' "mkvdisk -name A -size 1" together
        awk 'BEGIN { for (h = 1; h <= 2; h++) { print "actor h" h " host"; for (i = 0; i < 131072; i++) print "read A 0 1" } }'
        echo end
    )
    is "a block that meets the limit: status" 6 "$status"
    holds "a block that meets the limit: not 262,144 lines" wrote_lines 262144
    holds "a block that meets the limit: an entry isn't a read of its host" are_reads_of_hosts "$room/out"
}
