# Counts the entries of a history. It stands on lines.awk; `history` is the history's file.

BEGIN {
    load_history(history)
    refused = unread = faults = 0
    for (place = 0; place < entries; place++) {
        if (entry_request[place] == "-") unread++
        else if (is_refused(place)) refused++
        else if (entry_reply[place] == "disk fault") faults++
    }
    printf "flashcopy: entries %d, refused %d, unread %d, disk faults %d\n", entries, refused, unread, faults
}
