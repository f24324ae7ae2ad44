# Prints a session beside its history. It stands on lines.awk; `history` is the history's file.

# The width of the session's column. A longer line stands on a row of its own.
function width() { return 44 }

function row(left, right) {
    if (length(left) > width()) {
        printf "%s\n", substr(left, 1, 120) (length(left) > 120 ? " .." : "")
        left = ""
        if (right == "") return
    }
    if (right == "") printf "%s\n", left
    else printf "%-" width() "s | %s\n", left, right
}

BEGIN { load_history(history) }

{
    answers_of($0)
    left = $0
    for (place = first_entry; place <= last_entry; place++) {
        row(left, entry_text[place])
        left = ""
        count = split(entry_rows[place], parts, "\n")
        for (k = 1; k < count; k++) row("", parts[k])
    }
    if (last_entry < first_entry) row(left, "")
}

# what answers no line: the session is shorter than its history
END {
    for (place = next_entry; place < entries; place++) {
        row("", entry_text[place])
        count = split(entry_rows[place], parts, "\n")
        for (k = 1; k < count; k++) row("", parts[k])
    }
}
