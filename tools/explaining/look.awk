# What is legal in a specification, and rarely meant.

function look(text,   s) {
    spec = text
    read_spec()
    if (refused) {
        print "spec " fault_number " at " fault_place
        return 1
    }
    for (s = 0; s < stages; s++)
        count_streams(s)
    for (s = 0; s < stages; s++) {
        look_at_streams(s)
        look_at_inputs(s)
        look_at_text(s)
        if (name_of(s) == "lookup" || name_of(s) == "collate")
            look_at_keys(s)
    }
    if (!writers && !unread)
        note(-1, "Nothing is written: no `console` stands behind another stage, and there is no `>`.")
    if (!notes)
        say("Looked at:", "nothing in it is rarely meant.")
    return notes > 0
}

# How many inputs of a stage something feeds, and how many outputs something reads.
function count_streams(s,   k) {
    for (k = 0; k < streams_of(s); k++) {
        fed[s] += (s, k) in stream_to
        read_from[s] += (s, k) in stream_from
    }
    writers += is_writer(s)
}

function is_writer(s) {
    return name_of(s) == ">" || (name_of(s) == "console" && inputs_at[s] > 0)
}

# Says what is to be looked at of a stage, or of the whole.
function note(s, text) {
    if (s != noted || !notes)
        put(s < 0 ? "The whole" : first_strand[s] ", " quoted(text_of(piece_of[s])))
    noted = s
    notes++
    say("", text)
}

function look_at_streams(s,   name) {
    name = name_of(s)
    if (!fed[s] && name == ">")
        note(s, "Nothing feeds it, so its file becomes empty, whatever it holds.")
    else if (!fed[s] && name !~ /^(<|literal)$/ && inputs_at[s] > 0)
        note(s, "Nothing feeds it, so it has nothing to read. `console` before it reads standard input, and `<\001name` a file.")
    if (!read_from[s] && !is_writer(s) && name != "hole") {
        unread++
        note(s, "Nobody reads what it writes. `console` behind it writes standard output, and `>\001name` a file; `hole` says that nobody shall.")
    }
    if (label[piece_of[s]] != "" && streams_of(s) == 1)
        note(s, "Its label is not used again, so it has no other stream than without.")
    else if (streams_of(s) == 1 && fed[s] && name ~ /^(fanin|faninany|gather|merge|overlay)$/)
        note(s, "It has one input alone, so it has nothing to bring together.")
    else if (streams_of(s) == 1 && read_from[s] && name ~ /^(fanout|deal)$/)
        note(s, "It has one output alone, so it parts nothing.")
}

# What a stage does where one of its inputs has nothing.
function look_at_inputs(s,   name, k, text) {
    name = name_of(s)
    if (name == "gate" && (s, 0) in stream_from)
        note(s, "It writes nothing on output 0: what input 1 brings comes out at output 1.")
    if (!fed[s])
        return
    for (k = 0; k < streams_of(s) || (k < 2 && name ~ /^(lookup|collate|juxtapose)$/); k++) {
        if ((s, k) in stream_to)
            continue
        text = name ~ /^synchroni[sz]e$/ ? "it ends at once and writes nothing" : \
            name == "gate" && !k ? "the gate closes before anything passes" : \
            name == "dam" && !k ? "the dam never opens" : \
            name == "lookup" ? (k ? "there are no masters" : "there are no details") : \
            name == "collate" ? (k ? "there are no details" : "there are no masters") : \
            name == "juxtapose" ? (k ? "nothing is written" : "nothing is put before the records") : ""
        if (text != "" && k < 2 || text != "" && name ~ /^sync/)
            note(s, "Nothing feeds its input " k ", so " text ".")
    }
}

# Bytes that a shell would have taken otherwise.
function look_at_text(s,   words) {
    words = words_of(s)
    if (index(text_of(piece_of[s]), "\n"))
        note(s, "A line feed is a byte like any other, and no blank: it belongs to " (name_of(s) ~ /^[<>]$/ ? "the name." : "the text."))
    if (name_of(s) !~ /^[<>]$/)
        return
    if (index(words, "$"))
        note(s, "The name has a `$` in it. Within \047 and \047 no shell puts a value there.")
    if (words ~ /^~/)
        note(s, "The name begins with a `~`, which stands for no folder here.")
    if (words ~ /[*?]/)
        note(s, "The name is no pattern: it is that of one file.")
    if (words ~ /["\047\\]/)
        note(s, "A quote or a backslash belongs to the name.")
}

# Whether one range, which is for both inputs, may be right for both. Where both come from files, their first lines tell.
function look_at_keys(s,   range, list, count, one, other, k, key, seen, rows_of_one, sample_key, line) {
    count = ranges_of(words_of(s), list)
    if (count > 1 || !((s, 0) in stream_to) || !((s, 1) in stream_to))
        return
    one = file_behind(s, 0)
    other = file_behind(s, 1)
    range = count ? list[1] : "1-*"
    if (!can_read(one) || !can_read(other)) {
        if (count)
            note(s, "The one range is for both inputs. Where the keys of the two stand at different places give two ranges, that of input 0 first.")
        return
    }
    for (k = 0; k < 1000 && (getline line <path_of(one)) > 0; k++) {
        sample_key = key_of(line, range)
        seen[sample_key] = 1
        rows_of_one++
    }
    close(path_of(one))
    for (k = 0; k < 1000 && (getline line <path_of(other)) > 0; k++) {
        key = key_of(line, range)
        if (key in seen)
            break
    }
    close(path_of(other))
    if (rows_of_one && k && !(key in seen))
        note(s, (count ? "The one range is for both inputs" : "The whole line is the key") ", and the first lines of " quoted(one) " and " quoted(other) \
            " have no key in common: the last ones are " quoted(sample_key) " and " quoted(key) ". Two ranges, that of input 0 first, say where each has it.")
}

function can_read(file) {
    return file != "" && is_file(file, "-f") && is_file(file, "-r")
}

# The file whose records come to an input as they are, or nothing.
function file_behind(s, k,   turns, name) {
    for (turns = 0; turns <= stages && (s, k) in stream_to; turns++) {
        s = source[stream_to[s, k]]
        k = 0
        name = name_of(s)
        if (name == "<")
            return words_of(s)
        if (name !~ /^(locate|nlocate|find|nfind|take|drop|between|inside|tolabel|frlabel|buffer|copy|elastic|sort)$/)
            return ""
    }
    return ""
}

# The ranges in the arguments of a stage that has no others.
function ranges_of(words, list,   word, count, k, n) {
    count = split(tolower(words), word, " ")
    n = 0
    for (k = 1; k <= count; k++)
        if (word[k] ~ /^(words?|w|fields?|f)$/ && k < count) {
            list[++n] = word[k] word[k + 1]
            k++
        } else
            list[++n] = word[k]
    return n
}

# The part of a line that a range names. Of words those between them count as parted by one blank.
function key_of(line, range,   first, last, kind_of, piece_of_line, count, k, key) {
    kind_of = substr(range, 1, 1)
    sub(/^[a-z]+/, "", range)
    first = last = range + 0
    if (range ~ /-\*$/)
        last = 2000000
    else if (match(range, /[-.][0-9]+$/))
        last = substr(range, RSTART + 1) + (substr(range, RSTART, 1) == "." ? first - 1 : 0)
    if (kind_of != "w" && kind_of != "f")
        return substr(line, first, last - first + 1)
    sub(/^ +/, "", line)
    count = kind_of == "w" ? split(line, piece_of_line, / +/) : split(line, piece_of_line, /\t/)
    key = ""
    for (k = first; k <= last && k <= count; k++)
        key = key (k > first ? " " : "") piece_of_line[k]
    return key
}
