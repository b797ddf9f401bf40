# Stalls: who waits for whom, what each line says, the ring, and what is to be done.

function explain_stall(   k, rings, text) {
    print "stall"
    if (!specs) {
        print "pipe-explain: there is no specification among the words" >"/dev/stderr"
        return 1
    }
    read_spec()
    if (!are_ours()) {
        for (k = 1; k <= waits; k++)
            print wait_line[k]
        print "pipe-explain: these lines are not of this specification" >"/dev/stderr"
        return 1
    }
    mark_waits()
    for (k = 1; k <= waits; k++)
        tell_wait(k)
    if (ending != "")
        print ending
    print ""
    tell_line_feeds()
    say("Status:", "3.")
    say("When:", when[3])
    rings = tell_rings()
    print ""
    text = help[3]
    if (rings)
        sub(/^See /, "", text)
    say(rings ? "See also:" : "What to do:", text)
    return 0
}

function read_wait(line,   word) {
    split(line, word, " ")
    wait_line[++waits] = line
    strand_of[waits] = word[2] + 0
    told_name[waits] = word[3]
    want_of[waits] = word[4]
    stream_in[waits] = word[5] + 0
    wait_of[word[2] + 0] = waits
}

# Whether the wait lines can be of this specification.
function are_ours(   k, name) {
    for (k = 1; k <= waits; k++) {
        if (!(strand_of[k] in owner))
            return 0
        name = name_of(owner[strand_of[k]])
        if (name == "synchronize")
            name = "synchronise"
        if (name != told_name[k])
            return 0
    }
    return 1
}

# The strand that a wait line depends on: of several the first that waits itself. -1 where there is none.
function ahead(k,   strand, want, i, from) {
    strand = strand_of[k]
    want = want_of[k]
    if (want == "read" && (strand, stream_in[k]) in writer)
        return writer[strand, stream_in[k]]
    if (want == "write" && (strand, stream_in[k]) in reader)
        return reader[strand, stream_in[k]]
    if (want == "primed")
        return first_strand[owner[strand]]
    if (want == "any" || want == "gate")
        for (i = 0; i < inputs[strand]; i++)
            if ((strand, i) in writer) {
                from = writer[strand, i]
                if (from in wait_of)
                    return from
            }
    return -1
}

# What a wait line says.
function tell_wait(k,   strand, want, text, key, i, from, count) {
    strand = strand_of[k]
    want = want_of[k]
    text = strand_text(strand)
    text = toupper(substr(text, 1, 1)) substr(text, 2) " waits "
    key = want == "read" ? "read i" : want == "write" ? "write o" : want
    if (!(key in waited))
        text = text "for " want "."
    else {
        from = waited[key]
        sub(want == "read" ? "input i" : "output o", (want == "read" ? "input " : "output ") stream_in[k], from)
        text = text (want == "write" ? "" : "for ") from "."
    }
    from = ahead(k)
    if (want == "read" && from >= 0)
        text = text " What it reads comes from " numbered_text(from) "."
    if (want == "write" && from >= 0)
        text = text " The reader is " numbered_text(from) "."
    if (want == "primed")
        text = text " Stream 0 is " from "."
    if (want == "any" || want == "gate")
        for (i = 0; i < inputs[strand]; i++)
            if ((strand, i) in writer && writer[strand, i] in wait_of)
                text = text " Input " i " comes from " numbered_text(writer[strand, i]) "."
    print wait_line[k]
    say("", text)
}

# Shows the specification with the numbers of the lines under their stages.
function mark_waits(   count, k, from, number, before, low, high, size, blank) {
    for (k = 1; k <= waits; k++) {
        from = piece_place[piece_of[owner[strand_of[k]]]]
        before = from in number ? number[from] "," : ""
        number[from] = before strand_of[k]
    }
    count = cells(spec, 0)
    print ""
    for (low = 1; low <= count; low = high) {
        size = blank = 0
        for (high = low; high <= count && cell[high] != "\\n" && size + wide[high] <= 75; high++) {
            size += wide[high]
            if (cell[high] == " ")
                blank = high
        }
        if (high <= count && cell[high] != "\\n" && blank)
            high = blank + 1
        show_cells(low, high - 1, number)
        if (high <= count && cell[high] == "\\n")
            high++
    }
    print ""
}

# Shows some cells, and under them the numbers that stand at their places.
function show_cells(low, high, number,   k, line, under, size, gap) {
    line = under = ""
    size = 0
    for (k = low; k <= high; k++) {
        if (at[k] in number) {
            gap = size > length(under) ? size - length(under) : under != ""
            under = under repeated(" ", gap) number[at[k]]
        }
        line = line cell[k]
        size += wide[k]
    }
    sub(/ +$/, "", line)
    print "    " line
    if (under != "")
        print "    " under
}

# Finds each ring of lines that wait for each other, and says what to do about it.
function tell_rings(   k, j, i, first, next_one, color, rings) {
    for (k = 1; k <= waits; k++) {
        for (j = k; j && !(j in color); j = next_one >= 0 && next_one in wait_of ? wait_of[next_one] : 0) {
            color[j] = k
            next_one = ahead(j)
        }
        if (j && color[j] == k) {
            first = j
            for (i = wait_of[ahead(j)]; i != j; i = wait_of[ahead(i)])
                if (i < first)
                    first = i
            tell_ring(first)
            rings++
        }
    }
    return rings
}

# What is said of a ring that begins with a line, and what to do.
function tell_ring(start,   j, other, text, writes, others, held, piece) {
    j = start
    text = ""
    writes = others = held = 0
    do {
        other = wait_of[ahead(j)]
        text = text (text == "" ? "" : "; ") numbered_text(strand_of[j]) ", waits " \
            (want_of[j] == "write" ? "to write to " : want_of[j] == "primed" ? "for what comes to " : "to read from ") strand_of[other]
        if (want_of[j] == "write") {
            writes++
            if (want_of[other] != "write")
                held = j
        } else
            others++
        j = other
    } while (j != start)
    print ""
    say("The ring:", text ".")
    if (!writes || !others) {
        say("What to do:", back_help())
        if (!writes)
            say("", "All of them wait to read, so no stage that holds records helps: what nobody has written no queue has.")
    } else if ((strand_of[held], stream_in[held]) in left_of) {
        piece = left_of[strand_of[held], stream_in[held]]
        other = name_of(stage_at[piece + 1])
        say("What to do:", advice["ELASTIC"] " Then who writes there goes on: " with_elastic(piece) ".")
        say("", advice["BUFFER"] " `buffer` at the same place serves too, where the records that come there have an end and are wanted only after it.")
        if (other ~ /^(merge|collate|overlay|synchroni[sz]e)$/)
            say("", advice["each"] " `" other "` looks at a record of each input before it takes one: `buffer` on each way lets it go on.")
        if (other ~ /^(fanin|gather)$/)
            say("", order_help(other))
    }
}

function back_help() {
    return advice["back"] " Here records are led back to where they came from. What goes round needs a stage that ends by itself, as `take` does, and a `copy` for each record that is under way beside the first, or one `elastic` for any number of them."
}

function order_help(name) {
    return advice["order"] " Where it does not matter that the records of `" name "` come in its order, `faninany` in its place takes what is there."
}

# A piece and the next one, with an ELASTIC between.
function with_elastic(piece,   text) {
    text = quoted(text_of(piece)) " " separator " elastic " separator " " quoted(text_of(piece + 1))
    gsub(/`/, "", text)
    return "`" kept_together(text) "`"
}
