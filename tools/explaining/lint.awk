# What --lint says: whether the specification can stall, and by what.

function is_lint(line) {
    return line == "never stalls" || line ~ /^may stall: ((loose|issuer|latch) [0-9]+|walk [0-9]+( [0-9]+)*)$/
}

# The word by which the table of docs/stalls.md has a line of --lint.
function lint_key(line,   word) {
    split(line, word, " ")
    return word[1] == "may" ? word[3] : line
}

# A run has written the line itself, on standard output.
function explain_lint(line,   key, count, k) {
    if (!running)
        print line
    key = lint_key(line)
    count = split(line, walk, " ") - 3
    for (k = 1; k <= count; k++)
        walk[k] = walk[k + 3] + 0
    if (key == "never stalls")
        count = 0
    else if (!specs) {
        print "pipe-explain: there is no specification among the words" >"/dev/stderr"
        return 1
    }
    if (specs)
        read_spec()
    if (!is_of_spec(key, count)) {
        print "pipe-explain: this line is not of this specification" >"/dev/stderr"
        return 1
    }
    if (count)
        mark_strands(count)
    else
        print ""
    say("It says:", lint_says[key])
    if (key == "walk")
        tell_walk(count)
    else if (count)
        tell_stage_of(walk[1])
    if (key != "walk" || !tell_cures(count))
        say("What to do:", lint_help[key])
    if (count)
        say("See also:", "When\001a\001pipeline\001stalls (docs/stalls.md, and `man\001pipe`).")
    return 0
}

# Whether a line can be of this specification, as its first numbers in walk are.
function is_of_spec(key, count,   k) {
    if (specs && refused)
        return 0
    for (k = 1; k <= count; k++)
        if (!(walk[k] in owner))
            return 0
    if (key == "loose")
        return name_of(owner[walk[1]]) ~ /^(faninany|juxtapose|gate)$/
    return key != "latch" || name_of(owner[walk[1]]) == "dam"
}

# Shows the specification with the numbers of the walk under their stages.
function mark_strands(count,   k, strand, is_there) {
    for (k = 1; k <= count; k++)
        is_there[walk[k]] = 1
    for (strand = 0; strand < strands; strand++)
        if (strand in is_there)
            strand_of[++waits] = strand
    mark_waits()
}

# The stage that a line is about, and where its inputs come from.
function tell_stage_of(strand,   stage, text, part_of, from, k) {
    stage = owner[strand]
    text = first_strand[stage] ", " stage_text(stage) "."
    for (k = 0; k < streams_of(stage) && k < inputs_at[stage]; k++) {
        part_of = name_of(stage) == "dam" ? first_strand[stage] + k : strand
        from = name_of(stage) == "dam" ? 0 : k
        if ((part_of, from) in writer)
            text = text " Input " k " comes from " numbered_text(writer[part_of, from]) "."
        else
            text = text " Nothing feeds input " k "."
    }
    say("The stage:", text)
}

function tell_walk(count,   k, text) {
    text = ""
    for (k = 1; k <= count; k++)
        text = text (k > 1 ? "; " : "") numbered_text(walk[k])
    say("The ring:", text (count > 1 ? "; and from there to " walk[1] "." : ", which feeds itself."))
}

# Which output of one strand feeds an input of another one, from that number on; -1 where none does.
function feeds(from, to, least,   i) {
    for (i = least; i < inputs[to]; i++)
        if ((to, i) in writer && writer[to, i] == from)
            return i
    return -1
}

# Where the ring leads records back, or else of each stage at which its ways meet which of them wants an ELASTIC. It tells whether there was something
# to say.
function tell_cures(count,   k, before, behind, first, second, onwards, back, said) {
    onwards = back = 1
    for (k = 1; k <= count; k++) {
        behind = walk[k < count ? k + 1 : 1]
        onwards = onwards && feeds(walk[k], behind, 0) >= 0
        back = back && feeds(behind, walk[k], 0) >= 0
    }
    if (onwards || back) {
        say("What to do:", back_help())
        return 1
    }
    for (k = 1; k <= count; k++) {
        before = walk[k > 1 ? k - 1 : count]
        behind = walk[k < count ? k + 1 : 1]
        first = feeds(before, walk[k], 0)
        second = feeds(behind, walk[k], before == behind ? first + 1 : 0)
        if (first >= 0 && second >= 0) {
            tell_meeting(k, count, first, second, said)
            said = 1
        }
    }
    return said
}

# What to do where ways of the ring meet, which come to these inputs of a stage: an ELASTIC belongs on each that has to wait, if no stage there takes
# all that comes.
function tell_meeting(k, count, first, second, said,   name, text) {
    name = name_of(owner[walk[k]])
    places = holders = ""
    if (has_to_wait(name, first, second))
        judge_way(k, count, -1, first)
    if (has_to_wait(name, second, first))
        judge_way(k, count, 1, second)
    text = "Ways of the ring meet at " numbered_text(walk[k]) ". "
    if (places == "") {
        say(said ? "" : "What to do:", text "Where one of them has to wait a stage takes all that comes: " holders ". So who writes there goes on. The line of `--lint` stays, as it does not say what a stage holds; and where there are other rings it need not tell them.")
        return
    }
    say(said ? "" : "What to do:", text advice["ELASTIC"] " Then who writes there goes on: " places ".")
    if (name ~ /^(fanin|gather)$/)
        say("", order_help(name))
}

# Whether a stage lets one input wait while it wants a record of the other one.
function has_to_wait(name, this, other) {
    return name == "fanin" ? this > other : name == "lookup" ? this < other : 1
}

# Goes back on a way of the ring from where it meets others, by -1 or 1 in the list, to the first stage that takes all that comes, which is put to the
# holders; where there is none, an ELASTIC would stand before the meeting, which is put to the places.
function judge_way(k, count, onwards, inlet,   at, next_one, piece) {
    at = k
    do {
        next_one = (at - 1 + onwards + count) % count + 1
        if (feeds(walk[next_one], walk[at], 0) < 0)
            break
        at = next_one
        if (at != k && name_of(owner[walk[at]]) ~ /^(elastic|buffer|sort|count)$/) {
            holders = holders (holders == "" ? "" : "; ") first_strand[owner[walk[at]]] ", " stage_text(owner[walk[at]])
            return
        }
    } while (at != k)
    for (piece = 1; piece <= pieces; piece++)
        if (stage_at[piece] == owner[walk[k]] && uses[piece] == inlet)
            places = places (places == "" ? "" : " and ") with_elastic(piece - 1)
}
