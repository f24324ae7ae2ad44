# Which entries of a history answer which lines of its session. Two awk programs stand on it: show.awk and explain.awk.
#
# load_history reads a history. Entries then have the places 0 to entries - 1:
#   entry_text     the entry's first line
#   entry_rows     the rows of a report behind it, each with its newline
#   entry_request, entry_reply, entry_actor
#
# answers_of is called for one line of the session after the other. It sets
#   words, word, word_at    how many words the line has, the words, and the column where each begins, counted from 1
#   keyword                 the place of the word that names the line: 1, or 2 behind svctask and svcinfo
#   first_entry, last_entry the entries that answer it; the last is before the first where there is none
#   line_of_entry, text_of_entry   of each entry the number of the line that it answers, and the line
#
# Actors of a block answer in no order of lines. So the lines of a block have no entries until its `end`, which has all of
# them; each answers the next line of its actor, and those of main the lines that belong to no actor.
#
# Lines are read as bytes (LC_ALL=C).

# The most bytes of a line before its end.
function longest_line() { return 4096 }

function load_history(file,    line, left, at, head, request) {
    entries = 0
    left = 0
    while ((getline line < file) > 0) {
        if (left > 0) {
            entry_rows[entries - 1] = entry_rows[entries - 1] line "\n"
            left--
            continue
        }
        at = index(line, " -> ")
        head = substr(line, 1, at - 1)
        request = head
        sub(/^[0-9]+ [^ ]+ /, "", request)
        entry_text[entries] = line
        entry_rows[entries] = ""
        entry_request[entries] = request
        split(head, head_words, " ")
        entry_actor[entries] = head_words[2]
        entry_reply[entries] = substr(line, at + 4)
        if (entry_reply[entries] ~ /^rows [0-9]+$/) left = substr(entry_reply[entries], 6) + 0
        entries++
    }
    close(file)
    next_entry = 0
    line_number = 0
    in_block = 0
}

# Takes the line's words, parted by spaces and tabs.
function split_line(text,    at, length_) {
    for (at in word) delete word[at]
    words = 0
    at = 1
    length_ = length(text)
    while (at <= length_) {
        if (substr(text, at, 1) ~ /[ \t]/) {
            at++
            continue
        }
        words++
        word_at[words] = at
        while (at <= length_ && substr(text, at, 1) !~ /[ \t]/) at++
        word[words] = substr(text, word_at[words], at - word_at[words])
    }
    keyword = (word[1] == "svctask" || word[1] == "svcinfo") ? 2 : 1
}

function is_refused(place) { return entry_reply[place] ~ /^refused / }

function is_preset() { return !is_long && word[keyword] == "mkpreset" }

# Whether the entry is background work, which seconds of an advance bring.
function is_work(place) { return entry_request[place] ~ /^(copy|clean) [0-9]/ }

# The blocks of an access's entry.
function blocks_of(place,    parts) {
    split(entry_request[place], parts, " ")
    return parts[4] + 0
}

# Notes that an entry answers a line.
function answer(place, number, text) {
    line_of_entry[place] = number
    text_of_entry[place] = text
}

function answers_of(text) {
    line_number++
    sub(/\r$/, "", text)
    first_entry = next_entry
    last_entry = next_entry - 1
    is_long = length(text) > longest_line()
    if (is_long) {
        words = 0
    } else {
        split_line(text)
        if (words == 0 || word[1] ~ /^#/) return
    }
    if (in_block) take_block_line(text)
    else if (!is_long && begins_block()) open_block()
    else take_line(text)
}

# Gives the next entry, if there is one, to the line at hand.
function take_entry(text) {
    if (next_entry >= entries) return
    last_entry = next_entry++
    answer(last_entry, line_number, text)
}

# A line outside of blocks, and what it brings.
function take_line(text,    left) {
    if (next_entry >= entries) return
    take_entry(text)
    if (is_refused(last_entry)) return
    if (entry_request[last_entry] ~ /^(read|write) /) {
        left = word[keyword + 3] - blocks_of(last_entry)
        while (left > 0 && next_entry < entries) {
            take_entry(text)
            left -= blocks_of(last_entry)
        }
    } else if (entry_request[last_entry] ~ /^advance /) {
        while (next_entry < entries && is_work(next_entry)) take_entry(text)
    } else if (is_preset()) {
        take_preset(text)
    }
}

# What a preset asks behind its volume: a mapping and its start, each where the one before was made; and where one of the two wasn't
# answered so, what undoes those that were.
function take_preset(text) {
    if (entry_reply[last_entry] !~ /^Virtual Disk, /) return
    take_entry(text)
    if (entry_reply[last_entry] ~ /^FlashCopy Mapping, /) {
        take_entry(text)
        if (entry_reply[last_entry] == "ok") return
        take_entry(text)
    }
    take_entry(text)
}

# ---- blocks of actors

function begins_block() { return word[keyword] == "together" && words == keyword }

function open_block(    name) {
    in_block = 1
    actors = 0
    actor = "main"
    role = ""
    for (name in lines_of) delete lines_of[name]
    for (name in taken_of) delete taken_of[name]
}

# Puts a line into the queue of an actor.
function queue(name, number, text, count) {
    lines_of[name]++
    queued_line[name, lines_of[name]] = number
    queued_text[name, lines_of[name]] = text
    queued_left[name, lines_of[name]] = count
}

function take_block_line(text) {
    if (!is_long && word[keyword] == "end" && words == keyword) close_block()
    else if (!is_long && word[keyword] == "actor") take_actor_line(text)
    else if (role == "host" || role == "admin") queue(actor, line_number, text, is_access() ? word[keyword + 3] + 0 : 1)
    else queue("main", line_number, text, 1)
}

function is_access() { return !is_long && (word[keyword] == "read" || word[keyword] == "write") }

# A good actor line gives no entry but a worker's turns; any other is main's, and the lines behind it too.
function take_actor_line(text,    name, turns) {
    name = word[keyword + 1]
    role = word[keyword + 2]
    turns = word[keyword + 3]
    if (actors < 16 && name ~ /^[A-Za-z_][A-Za-z0-9_.-]*$/ && length(name) <= 63 && name != "main" && !(name in lines_of) &&
        (((role == "host" || role == "admin") && words == keyword + 2) ||
         ((role == "copier" || role == "cleaner") && words == keyword + 3 && turns ~ /^[0-9]+$/ && turns + 0 >= 1 && turns + 0 <= 10000))) {
        actors++
        actor = name
        lines_of[name] = 0
        if (turns != "") queue(name, line_number, text, turns + 0)
    } else {
        role = ""
        queue("main", line_number, text, 1)
    }
}

# All entries of the block, each given to the next line of its actor.
function close_block(    left, name, at) {
    in_block = 0
    left = 0
    for (name in lines_of) left += lines_of[name]
    while (left > 0 && next_entry < entries) {
        last_entry = next_entry++
        name = entry_actor[last_entry]
        at = taken_of[name] + 1
        answer(last_entry, queued_line[name, at], queued_text[name, at])
        if (is_refused(last_entry)) queued_left[name, at] = 0
        else if (entry_request[last_entry] ~ /^(read|write) /) queued_left[name, at] -= blocks_of(last_entry)
        else queued_left[name, at]--
        if (queued_left[name, at] <= 0) {
            taken_of[name] = at
            left--
        }
    }
}
