# Explains each refused line of a session. It stands on lines.awk, grammar.awk and advice.awk; `history` is the history's
# file, `grain` the run's grain size in KiB.

# The text with what can't be printed shown as a question mark; tabs stay.
function printable(text) {
    gsub(/[\001-\010\013-\037\177]/, "?", text)
    return text
}

# What stands before a column, as blanks: bytes inside a letter of several bytes take no column.
function blanks_before(text, column,    front) {
    front = substr(text, 1, column - 1)
    gsub(/[\200-\277]/, "", front)
    gsub(/[^\t]/, " ", front)
    return front
}

# A row of carets as long as the word.
function carets(text,    row) {
    gsub(/[\200-\277]/, "", text)
    row = text
    gsub(/./, "^", row)
    return row == "" ? "^" : row
}

# The line, and a caret under the word at the place `caret`.
function show_line(text,    column) {
    sub(/\r$/, "", text)
    if (length(text) > longest_line()) {
        printf "    %s ..\n", printable(substr(text, 1, 60))
        return
    }
    column = caret > words ? length(text) + 2 : word_at[caret]
    printf "    %s\n", printable(text)
    printf "    %s%s\n", blanks_before(text "  ", column), carets(caret > words ? "" : printable(word[caret]))
}

# The command that an entry asks: that of its line, or one of those that a preset asks.
function command_of(place,    name) {
    name = entry_request[place]
    sub(/ .*/, "", name)
    return name
}

function explain(place,    reason, text) {
    text = text_of_entry[place]
    split_line(length(text) > longest_line() ? "" : text)
    reason = substr(entry_reply[place], 9)
    caret = keyword
    advice = ""
    if (entry_request[place] == "-") advise_unread(reason)
    else advise_command(command_of(place), reason)
    printf "flashcopy: line %d, entry %d: refused %s\n", line_of_entry[place], place, reason
    show_line(text)
    printf "    %s\n", advice strange_bytes(text)
}

BEGIN {
    set_grammar()
    load_history(history)
}

{
    answers_of($0)
    from = first_entry
    to = last_entry
    for (place = from; place <= to; place++) {
        if (is_refused(place)) explain(place)
        else learn_volumes(place)
    }
}

# what answers no line: the session is shorter than its history
END {
    for (place = next_entry; place < entries; place++)
        if (is_refused(place)) printf "flashcopy: entry %d: %s -> %s\n", place, entry_request[place], entry_reply[place]
}
