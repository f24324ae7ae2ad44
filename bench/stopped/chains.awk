# Chains of slots, as docs/RULES.md has them (parts 2 to 6): which slots hold a grain, who reads from whom, and what is to move.
#
# A slot is named by its birth, and "" names none. Of a slot b there are chain_of[b], volume_of[b], is_old[b], mapping_of[b] ("" where it
# is no mapping's) and holds[b, g]; is_there[b] as long as it stands in a chain. All slots stand in at[1] to at[slots], those of one chain
# in their order. live[v] is the live slot of a volume, and grains[v] counts its grains.

function place_of(b,   i) {
    for (i = 1; i <= slots; i++) if (at[i] == b) return i
    return 0
}

# A slot that nobody has seen before, at a place.
function born(chain, v, m, place,   b, i) {
    b = births++
    for (i = ++slots; i > place; i--) at[i] = at[i - 1]
    at[place] = b
    is_there[b] = 1
    is_old[b] = 0
    chain_of[b] = chain == "" ? b : chain
    volume_of[b] = v
    mapping_of[b] = m
    live[v] = b
    return b
}

# A volume's new live slot in a chain of its own, which holds all.
function born_alone(v,   b, g) {
    b = born("", v, "", slots + 1)
    for (g = 0; g < grains[v]; g++) holds[b, g] = 1
}

function take_out(b,   i) {
    for (i = place_of(b); i < slots; i++) at[i] = at[i + 1]
    slots--
    is_there[b] = 0
}

function stands_behind(b,   i) {
    for (i = place_of(b) + 1; i <= slots; i++) if (chain_of[at[i]] == chain_of[b]) return 1
    return 0
}

# The nearest slot at or before a slot in its chain that holds the grain.
function holder(b, g,   i) {
    for (i = place_of(b); i > 0; i--) if (chain_of[at[i]] == chain_of[b] && holds[at[i], g]) return at[i]
    return ""
}

# The first live slot behind a slot that lacks the grain, with none between that holds it; one slot is passed over.
function next_lacking(b, g, but,   i, s) {
    for (i = place_of(b) + 1; i <= slots; i++) {
        s = at[i]
        if (chain_of[s] != chain_of[b]) continue
        if (holds[s, g]) return ""
        if (!is_old[s] && s != but) return s
    }
    return ""
}

# The first live slot, but for one, that reads the grain from a slot.
function needer(b, g, but) { return holds[b, g] ? next_lacking(b, g, but) : "" }

function count_needed(b,   g, n) {
    for (g = 0; g < grains[volume_of[b]]; g++) if (needer(b, g, "none") != "") n++
    return n + 0
}

function count_held(b,   g, n) {
    for (g = 0; g < grains[volume_of[b]]; g++) if (holds[b, g]) n++
    return n + 0
}

function is_complete(b) { return count_held(b) == grains[volume_of[b]] }

# The slots that depend on a slot, and itself, into leaves[].
function find_dependents(b,   more, i, s, g, h) {
    split("", leaves)
    leaves[b] = 1
    do {
        more = 0
        for (i = 1; i <= slots; i++) {
            s = at[i]
            if (is_old[s] || (s in leaves)) continue
            for (g = 0; g < grains[volume_of[s]]; g++) {
                h = holder(s, g)
                if (h != s && (h in leaves)) { leaves[s] = more = 1; break }
            }
        }
    } while (more)
}

# The older slots of a volume lose a grain.
function older_lose(v, g,   b) {
    for (b = 0; b < births; b++) if (is_there[b] && is_old[b] && volume_of[b] == v) holds[b, g] = 0
}

# Whoever reads a volume's older slots at a grain, but for one slot, gets it. 0 where that fails.
function fill_readers(v, g, but,   b, x) {
    for (b = 0; b < births; b++) {
        if (!is_there[b] || !is_old[b] || volume_of[b] != v || !holds[b, g]) continue
        x = needer(b, g, but)
        if (x != "" && !fill(x, g)) return 0
    }
    return 1
}

# A live slot that lacks a grain gets it. 0 where that fails.
function fill(m, g,   h) {
    h = holder(m, g)
    if (is_old[h] && volume_of[h] == volume_of[m]) return move_in_place(m, g)
    return fill_readers(volume_of[m], g, m) && move(m, g)
}
