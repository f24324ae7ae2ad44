# Ends with 1 where an entry of the history is refused or of a line that couldn't be read, and else with 0. It stands on
# lines.awk; `history` is the history's file.

BEGIN {
    load_history(history)
    for (place = 0; place < entries; place++) if (is_refused(place)) exit 1
    exit 0
}
