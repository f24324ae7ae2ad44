# The lines of a session with their options and operands, as --explain speaks of them (docs/MANUAL.md has the tables).

function line_of_grammar(name, options, operands) {
    known[name] = 1
    options_of[name] = options
    operands_of[name] = operands
}

function set_grammar() {
    line_of_grammar("mkvdisk", "-name -size -unit -thin", "")
    line_of_grammar("rmvdisk", "", "vdisk")
    line_of_grammar("read", "", "vdisk block count")
    line_of_grammar("write", "", "vdisk block count byte")
    line_of_grammar("armfault", "", "vdisk grain n")
    line_of_grammar("lsvdisk", "-delim", "")
    line_of_grammar("advance", "-seconds", "")
    line_of_grammar("mkfcmap", "-source -target -name -consistgrp -copyrate -cleanrate -grainsize -incremental -autodelete", "")
    line_of_grammar("prestartfcmap", "-restore", "fcmap")
    line_of_grammar("startfcmap", "-prep -restore", "fcmap")
    line_of_grammar("stopfcmap", "-force -split", "fcmap")
    line_of_grammar("rmfcmap", "-force", "fcmap")
    line_of_grammar("lsfcmap", "-delim", "[fcmap]")
    line_of_grammar("lsfcmapprogress", "-delim", "fcmap")
    line_of_grammar("lsfcmapdependentmaps", "-delim", "fcmap")
    line_of_grammar("mkpreset", "-source -preset -name", "")
    line_of_grammar("lsvdiskroom", "-delim", "")
    line_of_grammar("mkfcconsistgrp", "-name", "")
    line_of_grammar("prestartfcconsistgrp", "-restore", "group")
    line_of_grammar("startfcconsistgrp", "-prep -restore", "group")
    line_of_grammar("stopfcconsistgrp", "-force -split", "group")
    line_of_grammar("rmfcconsistgrp", "-force", "group")
    line_of_grammar("lsfcconsistgrp", "-delim", "[group]")
    line_of_grammar("together", "", "")
    line_of_grammar("actor", "", "name role")
    line_of_grammar("end", "", "")
    value_of["-name"] = "a name"
    value_of["-size"] = value_of["-copyrate"] = value_of["-cleanrate"] = value_of["-seconds"] = "a number"
    value_of["-unit"] = "kb, mb or gb"
    value_of["-grainsize"] = "64 or 256"
    value_of["-source"] = value_of["-target"] = "the name or id of a volume"
    value_of["-consistgrp"] = "the name or id of a group"
    value_of["-delim"] = "one printable byte other than the space"
    value_of["-preset"] = "snapshot, clone or backup"
    operand_is["vdisk"] = "the name or id of a volume"
    operand_is["fcmap"] = "the name or id of a mapping"
    operand_is["group"] = "the name or id of a group"
    operand_is["block"] = operand_is["count"] = operand_is["grain"] = operand_is["n"] = "a number"
    operand_is["byte"] = "a byte in two hexadecimal digits, as 5a"
    operand_is["name"] = "a name"
    operand_is["role"] = "host, admin, copier N or cleaner N"
}

# What a name, a number and a choice are, in a sentence of its own; nothing for a value that explains itself.
function form_of(value) {
    if (value == "a name") return " A name has 1 to 63 letters, digits, _, - and ., and begins with a letter or _."
    if (value == "a number") return " A number is decimal digits, below 4,294,967,296."
    if (value ~ /^the name or id/) return " An id is decimal digits; a name has 1 to 63 letters, digits, _, - and ., and begins with a letter or _."
    return ""
}

# Whether the option takes a value.
function takes_value(option) { return option in value_of }

# The place of the operand of a number, counted from 1, or 0.
function place_of_operand(number,    k, count) {
    count = 0
    for (k = keyword + 1; k <= words; k++) {
        if (word[k] ~ /^-/) {
            if (takes_value(word[k])) k++
        } else if (++count == number) {
            return k
        }
    }
    return 0
}

# The number of the operand that the word at a place is, counted from 1, or 0 where it is an option or its value.
function operand_at(place,    k, count) {
    count = 0
    for (k = keyword + 1; k <= words; k++) {
        if (word[k] ~ /^-/) {
            if (takes_value(word[k])) k++
        } else {
            count++
            if (k == place) return count
        }
    }
    return 0
}

# The place of an option's value, or 0.
function place_of_value(option,    k) {
    for (k = keyword + 1; k < words; k++) if (word[k] == option) return k + 1
    return 0
}

# A list of words for a sentence: "-name, -size and -unit".
function listed(text,    count, parts, k, all) {
    count = split(text, parts, " ")
    all = parts[1]
    for (k = 2; k <= count; k++) all = all (k == count ? " and " : ", ") parts[k]
    return all
}
