# What --explain says of a refusal: the word that it is about (its place in `caret`, or one past the last word), and a
# sentence on what to do (`advice`). It stands on lines.awk and grammar.awk. `grain` is the run's, in KiB.

# ---- what the history has said of volumes

# Takes note of a volume that an entry made or removed.
function learn_volumes(place,    parts, count, k, id, name, size, unit) {
    if (entry_reply[place] ~ /^Virtual Disk, id \[[0-9]+\]/) {
        id = entry_reply[place]
        gsub(/[^0-9]/, "", id)
        name = "vdisk" id
        unit = "mb"
        count = split(entry_request[place], parts, " ")
        for (k = 2; k < count; k++) {
            if (parts[k] == "-name") name = parts[k + 1]
            if (parts[k] == "-size") size = parts[k + 1]
            if (parts[k] == "-unit") unit = parts[k + 1]
        }
        volume_named[name] = id
        name_of_volume[id] = name
        volume_blocks[id] = size * kib_of(unit) * 2
    } else if (entry_request[place] ~ /^rmvdisk / && entry_reply[place] == "ok") {
        id = volume_of(substr(entry_request[place], 9))
        delete volume_named[name_of_volume[id]]
        delete name_of_volume[id]
    }
}

# A whole number in all its digits.
function whole(number) { return sprintf("%.0f", number) }

function kib_of(unit) { return unit == "kb" ? 1 : unit == "gb" ? 1048576 : 1024 }

# The id of the volume that a word names, or nothing.
function volume_of(reference) {
    if (reference ~ /^[0-9]+$/) return (reference + 0 in name_of_volume) ? reference + 0 : ""
    return (reference in volume_named) ? volume_named[reference] : ""
}

# ---- lines that couldn't be read

# Commands of the product that have no line here.
function is_left_out(name) {
    return name ~ /^(ch(fcmap|fcconsistgrp|vdisk|volume)|(mk|rm|ls|expand|shrink)(volume|vdisksize|vdiskhostmap)|lsvdisk(fcmappings|copy|dependentmaps)|mkimagevolume|lsfcmapcandidate|mkvdiskhostmap|lseventlog)$/
}

function advise_unread(reason,    at) {
    at = reason
    sub(/.* /, "", at)
    if (reason == "long line") {
        caret = 0
        advice = "A line has at most " longest_line() " bytes before its end. Part it, or cut what isn't needed."
    } else if (reason == "unknown command") {
        advise_unknown_command()
    } else if (reason == "not in a block") {
        advice = "`" word[keyword] "` can't stand here: actor and end stand inside a block, and an actor has the lines of its role alone."
    } else if (reason == "no actor") {
        advice = "Put a good actor line before it: in a block each line belongs to an actor."
    } else if (reason ~ /^limit /) {
        advice = "A block has at most " at " actors."
    } else if (reason ~ /^unknown option at word /) {
        caret = at + 0
        advise_unknown_option()
    } else if (reason ~ /^option repeated at word /) {
        caret = at + 0
        advice = "`" word[caret] "` is given already, or -force and -split together: one of them is enough."
    } else if (reason ~ /^missing word /) {
        caret = words + 1
        advise_missing_word()
    } else if (reason ~ /^bad (number|name) at word /) {
        caret = at + 0
        advise_bad_value()
    } else if (reason ~ /^missing option /) {
        caret = words + 1
        advice = "Add " at " and " value_of[at] ": `" word[keyword] "` can't do without it."
    }
}

function advise_unknown_command(    name) {
    if (keyword > words) {
        caret = words + 1
        advice = "A command stands behind " word[1] "."
        return
    }
    name = word[keyword]
    if (name in known) {
        advice = "`" name "` is in the grammar, and this program doesn't answer it yet (docs/MANUAL.md, \"Blocks\")."
    } else if (tolower(name) in known) {
        advice = "Commands are written in small letters: " tolower(name) "."
    } else if (is_left_out(name)) {
        advice = "The real product has this command and this program doesn't: see docs/FROM-SVC.md."
    } else {
        advice = "No line begins with this word. docs/MANUAL.md has the table of lines."
    }
}

function advise_unknown_option(    name) {
    name = word[keyword]
    if (word[caret] ~ /^-/) {
        if (options_of[name] == "") advice = "`" name "` has no options."
        else advice = "`" name "` has no option " word[caret] ". It has " listed(options_of[name]) "."
    } else if (operands_of[name] == "" && options_of[name] == "") {
        advice = "`" name "` stands alone on its line."
    } else if (operands_of[name] == "") {
        advice = "`" name "` has options alone, and this word is neither an option nor the value of one."
    } else {
        advice = "`" name "` has no more operands than " listed(operands_of[name]) ": this word is one too many."
    }
}

function advise_missing_word(    name, count, parts) {
    name = word[keyword]
    if (words > keyword && takes_value(word[words]) && operand_at(words) == 0) {
        advice = "Behind " word[words] " stands " value_of[word[words]] "."
        return
    }
    split(operands_of[name], parts, " ")
    for (count = 1; place_of_operand(count) > 0; count++);
    if (parts[count] == "") advice = "A word is missing at the line's end."
    else advice = "`" name "` has the operands " listed(operands_of[name]) ": " parts[count] ", " operand_is[parts[count]] ", isn't there."
}

function advise_bad_value(    number, parts, name, plain, value) {
    name = word[keyword]
    number = operand_at(caret)
    if (number > 0) {
        split(operands_of[name], parts, " ")
        plain = parts[number]
        gsub(/[][]/, "", plain)
        value = operand_is[plain]
        advice = "The operand " plain " is " value "." form_of(value)
        if (name == "actor" && number == 1) advice = advice " It is not main, and no other actor of the block has it."
    } else {
        value = value_of[word[caret - 1]]
        advice = "Behind " word[caret - 1] " stands " value "." form_of(value)
    }
}

# ---- commands that were refused

# The place of the word for what a command is about: its operand, or the value of an option.
function set_caret(option) { caret = option == "" ? place_of_operand(1) : place_of_value(option) }

# The name is that of the line, or of the command that the line's preset asked.
function advise_command(name, reason,    parts, count) {
    count = split(reason, parts, " ")
    set_caret("")
    if (caret == 0) caret = keyword
    if (reason ~ /^no such /) advise_no_such(name, parts[3])
    else if (reason ~ /^name taken /) advise_name_taken(name, parts[3])
    else if (reason ~ /^limit /) advise_limit(name, parts[2])
    else if (reason == "no disk") advise_no_disk()
    else if (reason ~ /^bad value of /) advise_value(name, parts[4])
    else if (reason ~ /^in use /) advice = "A mapping names volume " parts[3] ", or another volume still reads from it. lsfcmap shows the mappings: remove them (rmfcmap) first."
    else if (reason == "not prepared") advice = "Give -prep, or prepare it first by prestart" substr(name, 6) "."
    else if (reason ~ /^not allowed in /) advise_state(name, parts[4])
    else if (reason ~ /^in group /) advice = "The mapping is in group " parts[3] ", and is started and stopped with it: " group_line(name) " " parts[3] "."
    else if (reason == "empty group") advice = "Put a mapping into the group first, by mkfcmap -consistgrp."
    else if (reason ~ /^target twice /) advice = "Two members of the group have volume " parts[3] " as target: put one of them into a group of its own."
    else if (reason ~ /^source is target /) advice = "Volume " parts[4] " is the source of one member and the target of another: start them in two groups, one after the other."
    else if (reason ~ /^source not ready /) advise_source(parts[4])
    else if (reason ~ /^target active /) advice = "Mapping " parts[3] " has this target and is active. Stop it first (stopfcmap), or let time pass until its copy is complete and nothing needs it."
    else if (reason ~ /^target is source /) advice = "Volume " parts[4] " is the target here, and other volumes read from it. To write over it, give -restore; behind a prestart it is given again."
    else if (reason ~ /^restore loop /) advice = "Each of the volumes " substr(reason, 14) " would wait for a grain of the next. Let time pass until one of their copies is complete, or stop one."
    else if (reason ~ /^not complete /) advice = "The copy holds " parts[3] " of " parts[4] " grains, and -split needs all. Let time pass (advance), or stop it without -split."
    else if (reason == "needs force") advise_force(name)
    else if (reason ~ /^size differs /) { set_caret("-target"); advice = "The source has " parts[3] " grains and the target " parts[4] ": make a target of the same size." }
    else if (reason ~ /^grain differs /) { set_caret("-grainsize"); advice = "The whole run has grains of " parts[4] " KiB: leave -grainsize out, or run with --grain " parts[3] "." }
    else if (reason == "same volume") { set_caret("-target"); advice = "A volume can't be a copy of itself: name another target." }
    else if (reason ~ /^pair taken /) { set_caret("-target"); advice = "Mapping " parts[3] " has this source and this target: start that one." }
}

function advise_no_such(name, kind,    shown) {
    if (name == "mkfcmap" && kind == "group") set_caret("-consistgrp")
    else if (name == "mkpreset") set_caret("-source")
    else if (name == "mkfcmap") set_caret(volume_of(word[place_of_value("-source")]) == "" ? "-source" : "-target")
    shown = kind == "vdisk" ? "volume" : kind == "fcmap" ? "mapping" : "group"
    advice = "No " shown " has this id or name here. " (kind == "vdisk" ? "lsvdisk" : kind == "fcmap" ? "lsfcmap" : "lsfcconsistgrp") " lists those that are there."
}

function advise_name_taken(name, id,    owner) {
    owner = (name == "mkvdisk" ? "volume " : name == "mkfcmap" ? "mapping " : "group ") id
    set_caret("-name")
    if (caret == 0) {
        caret = keyword
        advice = "The name that it would be given is taken by " owner ": choose one by -name."
    } else {
        advice = "The name is taken by " owner ": choose another, or leave -name out."
    }
}

function advise_no_disk(    other) {
    if (is_preset()) {
        set_caret("-preset")
        other = "another preset: a snapshot is thin, and the others are flat"
    } else {
        other = "the other kind (-thin)"
    }
    advice = "All disks of this kind are used up in some lane (a removed volume's disks aren't used again): make fewer volumes, or try " other "."
}

function advise_source(id) {
    if (is_preset()) set_caret("-source")
    advice = "The source, volume " id ", isn't online, since it is the target of a mapping that is prepared, stopping or stopped. Start that mapping, or remove it (rmfcmap -force)."
}

function advise_limit(name, count) {
    if (name == "read" || name == "write") {
        caret = place_of_operand(3)
        advice = "One line reads or writes at most " count " blocks: part it into several."
    } else if (name == "mkvdisk" && count == 8192) {
        set_caret(is_preset() ? "-source" : "-size")
        advice = "All volumes together have at most 8,192 grains, which is " 8 * grain " mb at grains of " grain " KiB."
    } else if (name == "mkfcmap" && count == 256) {
        set_caret("-source")
        advice = "A source has at most 256 mappings."
    } else if (name == "mkfcmap" && count == 64) {
        set_caret("-consistgrp")
        advice = "A group has at most 64 mappings."
    } else {
        advice = "There are " count " already, and no more may be."
    }
}

function advise_value(name, what,    size, unit, kib, id) {
    if (what == "size") {
        size = word[place_of_value("-size")] + 0
        unit = place_of_value("-unit") ? word[place_of_value("-unit")] : "mb"
        kib = size * kib_of(unit)
        set_caret("-size")
        if (size == 0) advice = "A volume has one grain or more: " grain " kb."
        else if (kib < grain) advice = "A size that isn't whole grains: a grain has " grain " KiB here, so " grain " kb is the least."
        else advice = "A size that isn't whole grains: a grain has " grain " KiB here, so " whole(kib - kib % grain) " kb or " whole(kib - kib % grain + grain) " kb would do."
    } else if (what == "blocks") {
        id = volume_of(word[place_of_operand(1)])
        caret = place_of_operand(word[place_of_operand(3)] + 0 == 0 ? 3 : 2)
        if (word[place_of_operand(3)] + 0 == 0) advice = "The count is 1 or more."
        else advice = "The volume has " whole(volume_blocks[id]) " blocks of 512 bytes, 0 to " whole(volume_blocks[id] - 1) ", and this goes past them."
    } else if (what == "grain") {
        id = volume_of(word[place_of_operand(1)])
        caret = place_of_operand(2)
        advice = "The volume has " whole(volume_blocks[id] / (2 * grain)) " grains, counted from 0."
    } else if (what == "seconds") {
        set_caret("-seconds")
        advice = "Between 1 and 3,600 seconds pass in one line: part it into several."
    } else {
        set_caret("-" what)
        advice = "A rate is 0 to 150; 0 means no work in the background."
    }
}

function group_line(name) { return name == "stopfcmap" ? "stopfcconsistgrp" : name == "startfcmap" ? "startfcconsistgrp" : "prestartfcconsistgrp" }

function advise_force(name) {
    if (name == "rmfcmap") advice = "The mapping is stopped and its target offline. Start it again, or give -force: the target then comes online with the grains that were copied, and its old ones elsewhere."
    else advice = "The group has members. With -force they stay, as single mappings."
}

# A command that the state of its mapping or group doesn't allow.
function advise_state(name, state,    stop, thing) {
    thing = name ~ /consistgrp$/ || name == "mkfcmap" ? "group" : "mapping"
    stop = thing == "group" ? "stopfcconsistgrp" : "stopfcmap"
    if (name == "mkfcmap") {
        set_caret("-consistgrp")
        advice = "A mapping joins a group that is empty, idle_or_copied or stopped: this one is " state ". Stop it first (" stop ")."
    } else if (name ~ /^stop/) {
        advise_stop(name, state, thing)
    } else if (state == "copying") {
        advice = "The " thing " is copying already: stop it first (" stop "), or let time pass until its copy is complete and nothing needs it."
    } else if (state == "prepared") {
        if (name ~ /^rm/) advice = "The " thing " is prepared: stop it first (" stop "), and then remove it with -force."
        else advice = "The " thing " is prepared already: start it without -prep, or stop it (" stop ")."
    } else if (state == "stopping") {
        advice = "The " thing " is stopping: other copies still need its grains. Let time pass (advance) at a clean rate above 0, stop it with -force, or stop what depends on it (lsfcmapdependentmaps)."
    } else {
        advice = "The " thing " is " state "."
    }
}

function advise_stop(name, state, thing) {
    if (state == "idle_or_copied") advice = "The " thing " isn't copying: there is nothing to stop."
    else if (state == "stopped") advice = "The " thing " is stopped already."
    else if (state == "stopping") advice = "The " thing " is stopping already, until nothing needs it. With -force it ends at once, with all that depend on it."
    else if (state == "prepared") advice = "A prepared " thing " has no copy to split: stop it without -split."
    else advice = "The " thing " is " state ", and can't be stopped so."
}

# ---- bytes that look like others

# Names the bytes of a line that are easily taken for others.
function strange_bytes(text,    said) {
    said = ""
    if (text ~ /^\357\273\277/) said = said " The line begins with a byte order mark: save the file without one."
    if (text ~ /\302\240/) said = said " There is a no-break space in the line: put a plain space in its place."
    if (text ~ /\342\200[\220-\225]/ || text ~ /\342\210\222/) said = said " There is a dash in the line that isn't a hyphen: options begin with a plain -."
    if (text ~ /\342\200[\230-\237]/) said = said " There are curly quotes in the line: words stand without quotes."
    return said
}
