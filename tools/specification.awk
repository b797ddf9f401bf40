# Reads the text of a specification as the program does, but for arguments, which it doesn't judge. The tools have it before their own programs.
#
# read_specification(TEXT), which is called once, sets `refused`, where there is a fault, with fault_number and fault_place. Places count bytes
# from 0. A byte is a string of length 1, as it is where LC_ALL is C. It also sets
#
#     separator, end_sign, escape
#                 the characters that the options choose; the last two may be empty
#     pieces      the number of pieces, from 1 on, each of which is a stage or a later use of a label: its kind ("stage", "reference",
#                 "connector"), pipeline_of it, piece_place and piece_end, its label, and uses, how many uses of the label came before;
#                 of a stage the stage_name in small letters with its name_place, its argument, and its text without the label;
#                 stage_at is the stage that it is of
#     stages      their number, from 0 on; piece_of each, and inputs_at, how many inputs it may have; labelled[label]
#     streams     their number, from 0 on, each from an output of its source to an input of its target, which target_piece stands for;
#                 stream_from[stage, output] and stream_to[stage, input]
#     strands     their number, from 0 on, as the lines of a stall number them: first_strand of each stage, owner and part of each strand
#
# most_inputs[name] and most_outputs[name] are set for each name that there is. Where the text itself has a fault there is no net.

BEGIN {
    for (byte_number = 1; byte_number < 256; byte_number++)
        code[sprintf("%c", byte_number)] = byte_number
    set_widest()
}

function read_specification(bytes) {
    spec = bytes
    size = length(spec)
    refused = stages = streams = strands = items = pieces = pipelines = 0
    read_text()
    if (!refused) {
        make_net()
        lay_strands()
    }
}

function byte_at(place) {
    return substr(spec, place + 1, 1)
}

# How many bytes the letter of UTF-8 has that begins at a place of a text, counted from 1; 0 where there is none. It sets `letter_code`.
function letter_size(bytes, at,    lead, more, k, next_one, long) {
    lead = code[substr(bytes, at, 1)]
    long = lead < 128 ? 1 : lead < 194 || lead > 244 ? 0 : lead < 224 ? 2 : lead < 240 ? 3 : 4
    letter_code = lead - (long == 2 ? 192 : long == 3 ? 224 : long == 4 ? 240 : 0)
    for (k = 1; k < long; k++) {
        next_one = code[substr(bytes, at + k, 1)]
        if (next_one < 128 || next_one > 191)
            return 0
        letter_code = letter_code * 64 + next_one - 128
    }
    if (long == 3 && (letter_code < 2048 || (letter_code >= 55296 && letter_code < 57344)))
        return 0
    return long == 4 && (letter_code < 65536 || letter_code > 1114111) ? 0 : long
}

function is_utf8(bytes,    at, long) {
    for (at = 1; at <= length(bytes); at += long) {
        long = letter_size(bytes, at)
        if (!long)
            return 0
    }
    return 1
}

# The fault of the least place is told, and of two at one place that of the lesser number.
function fault(number, place) {
    if (!refused || place < fault_place || (place == fault_place && number < fault_number)) {
        refused = 1
        fault_number = number
        fault_place = place
    }
}

# The text.

function read_text(    begin, k, from) {
    if (size > 65536) {
        fault(10, 65536)
        return
    }
    begin = read_options()
    if (refused)
        return
    read_items(begin)
    from = 1
    for (k = 1; k <= items; k++)
        if (reading[k] == "end") {
            read_pipeline(from, k - 1, place[k])
            from = k + 1
        }
    read_pipeline(from, items, size)
    if (!pieces)
        fault(1, size)
}

# Reads the global options, if there are any, and tells where the body begins.
function read_options(    at, open, close_at, words, k, option, value) {
    separator = "|"
    end_sign = escape = ""
    at = 0
    while (byte_at(at) == " ")
        at++
    if (byte_at(at) != "(")
        return at
    open = at
    close_at = index(substr(spec, open + 1), ")") + open - 1
    if (close_at < open) {
        fault(4, open)
        return size
    }
    words = 0
    for (at = open + 1; at < close_at; at++)
        if (byte_at(at) != " ") {
            if (at == open + 1 || byte_at(at - 1) == " ")
                word_place[++words] = at
            word[words] = word[words] byte_at(at)
        }
    for (k = 1; k <= words; k += 2) {
        option = tolower(word[k])
        option = option == "stagesep" ? "sep" : option == "endchar" ? "end" : option == "escape" ? "esc" : option
        if (option !~ /^(sep|end|esc|name)$/ || option in chosen)
            fault(3, word_place[k])
        if (k == words)
            fault(5, close_at)
        value = k < words ? word[k + 1] : ""
        if (option ~ /^(sep|end|esc)$/ && k < words && !may_be_chosen(value))
            fault(5, word_place[k + 1])
        if (!(option in chosen)) {
            chosen[option] = value
            chosen_at[option] = word_place[k + 1]
        }
    }
    if (!("sep" in chosen)) {
        chosen["sep"] = "|"
        chosen_at["sep"] = 0
    }
    for (option in chosen)
        for (value in chosen)
            if (option != "name" && value != "name" && chosen[option] == chosen[value] && chosen_at[value] < chosen_at[option])
                fault(5, chosen_at[option])
    separator = chosen["sep"]
    end_sign = chosen["end"]
    escape = chosen["esc"]
    return close_at + 1
}

function may_be_chosen(value) {
    return length(value) == 1 && code[value] > 32 && code[value] < 127 && value !~ /[A-Za-z0-9()*.:]/
}

# The items of the body: bytes, with how each is read, where it begins and where the next one does.
function read_items(at,    byte) {
    while (at < size) {
        byte = byte_at(at)
        if (byte == escape && at + 1 == size) {
            fault(9, at)
            return
        }
        place[++items] = at
        if (byte == escape) {
            reading[items] = "literal"
            byte = byte_at(++at)
        } else if (byte != separator && byte != end_sign) {
            reading[items] = "plain"
        } else if (byte_at(at + 1) == byte && at + 1 < size) {
            reading[items] = "literal"
            at++
        } else {
            reading[items] = byte == separator ? "separator" : "end"
        }
        item[items] = byte
        at++
    }
}

function is_plain_blank(k) {
    return item[k] == " " && reading[k] == "plain"
}

function read_pipeline(from, to, closed,    k, start) {
    for (k = from; k <= to && is_plain_blank(k); k++) { }
    if (k > to)
        return
    pipelines++
    start = from
    for (k = from; k <= to; k++)
        if (reading[k] == "separator") {
            read_stage(start, k - 1, place[k])
            start = k + 1
        }
    read_stage(start, to, closed)
}

function bytes_of(from, to,    k, bytes) {
    bytes = ""
    for (k = from; k <= to; k++)
        bytes = bytes item[k]
    return bytes
}

function read_stage(from, to, closed,    begin, k, colon, name) {
    while (from <= to && is_plain_blank(from))
        from++
    while (from <= to && is_plain_blank(to))
        to--
    if (from > to) {
        fault(2, closed)
        return
    }
    pieces++
    pipeline_of[pieces] = pipelines
    piece_place[pieces] = place[from]
    piece_end[pieces] = to < items ? place[to + 1] : size
    begin = from
    while (begin <= to && item[begin] == " ")
        begin++
    colon = 0
    if (item[begin] != "*" || begin > to)
        for (k = begin; k <= to && item[k] != " " && !colon; k++)
            if (item[k] == ":" && reading[k] == "plain")
                colon = k
    if (!colon) {
        read_named(from, to, "")
        return
    }
    name = bytes_of(from, colon - 1)
    from = colon + 1
    while (from <= to && is_plain_blank(from))
        from++
    if (length(name) > 8 || name !~ /^[A-Za-z0-9]+$/) {
        fault(8, piece_place[pieces])
    } else if (from > to) {
        if (name in uses_of) {
            kind[pieces] = "reference"
            label[pieces] = name
            uses[pieces] = ++uses_of[name]
        } else {
            fault(7, piece_place[pieces])
        }
    } else if (name in uses_of) {
        fault(6, piece_place[pieces])
    } else {
        uses_of[name] = 0
        read_named(from, to, name)
    }
}

# A stage, or a connector, of these items.
function read_named(from, to, name,    begin, after) {
    for (begin = from; begin <= to && item[begin] == " "; begin++) { }
    for (after = begin; after <= to && item[after] != " "; after++) { }
    name_place[pieces] = begin > to ? piece_place[pieces] : place[begin]
    stage_name[pieces] = tolower(bytes_of(begin, after - 1))
    argument[pieces] = bytes_of(after, to)
    text[pieces] = bytes_of(from, to)
    label[pieces] = name
    uses[pieces] = 0
    kind[pieces] = name == "" && item[begin] == "*" && item[after - 1] == ":" ? "connector" : "stage"
}

# The net.

function make_net(    k, first, last) {
    for (k = 1; k <= pieces; k++) {
        first = pipeline_of[k] != pipeline_of[k - 1]
        last = pipeline_of[k] != pipeline_of[k + 1]
        if (kind[k] == "connector")
            fault(17, piece_place[k])
        else if (kind[k] == "reference")
            check_reference(k, first, last)
        else
            add_stage(k, first)
        if (!first)
            join(k - 1, k)
    }
}

# The greatest numbers of inputs and outputs of each stage that there is.
function set_widest() {
    set_for("literal hole > change strip pad split join xlate reverse duplicate sort count", 1, 1)
    set_for("elastic buffer copy fblock block deblock specs", 1, 1)
    set_for("locate nlocate find nfind take drop between inside tolabel frlabel chop unique", 1, 2)
    set_for("console <", 0, 1)
    set_for("fanout deal", 1, 64)
    set_for("fanin faninany gather overlay merge", 64, 1)
    set_for("synchronise synchronize gate dam", 64, 64)
    set_for("juxtapose", 2, 1)
    set_for("lookup collate", 2, 3)
}

function set_for(names, inputs, outputs,    list, k) {
    for (k = split(names, list, " "); k > 0; k--) {
        most_inputs[list[k]] = inputs
        most_outputs[list[k]] = outputs
    }
}

function add_stage(k, first,    name, words, list) {
    name = stage_name[k]
    stage_at[k] = stages
    if (label[k] != "")
        labelled[label[k]] = stages
    piece_of[stages] = k
    if (stages >= 1024)
        fault(16, piece_place[k])
    if (name in most_inputs)
        inputs_at[stages] = name == "console" && !first ? 1 : most_inputs[name]
    else
        fault(11, name_place[k])
    if (name == "<" && !first)
        fault(14, name_place[k])
    if (name == "console" && consoles[first]++)
        fault(15, name_place[k])
    if (name == ">") {
        # With another number of words, or a longer one, the arguments are wrong, and there is no file.
        words = split_words(argument[k], list)
        if (words == 1 && length(list[1]) < 256 && replaced[list[1]]++)
            fault(18, name_place[k])
    }
    stages++
}

function split_words(bytes, list,    words, k, byte, inside) {
    words = inside = 0
    for (k = 1; k <= length(bytes); k++) {
        byte = substr(bytes, k, 1)
        if (byte == " ") {
            inside = 0
            continue
        }
        if (!inside)
            list[++words] = ""
        inside = 1
        list[words] = list[words] byte
    }
    return words
}

function check_reference(k, first, last,    stage, name) {
    stage = labelled[label[k]]
    name = stage_name[piece_of[stage]]
    stage_at[k] = stage
    if (uses[k] > 63 || (name in most_inputs && ((!first && uses[k] >= inputs_at[stage]) || (!last && uses[k] >= most_outputs[name]))))
        fault(13, piece_place[k])
}

function join(from, to) {
    if (kind[from] == "connector" || kind[to] == "connector")
        return
    source[streams] = stage_at[from]
    output[streams] = uses[from]
    target[streams] = stage_at[to]
    target_piece[streams] = to
    input[streams] = uses[to]
    stream_from[source[streams], output[streams]] = streams
    stream_to[target[streams], input[streams]] = streams
    streams++
}

function streams_of(stage) {
    return label[piece_of[stage]] == "" ? 1 : uses_of[label[piece_of[stage]]] + 1
}

# The name of a stage.
function name_of(stage) {
    return stage_name[piece_of[stage]]
}

# ELASTIC has two strands, and DAM one for each stream.
function lay_strands(    s, k, count) {
    for (s = 0; s < stages; s++) {
        first_strand[s] = strands
        count = name_of(s) == "elastic" ? 2 : name_of(s) == "dam" ? streams_of(s) : 1
        for (k = 0; k < count; k++) {
            owner[strands] = s
            part[strands++] = k
        }
    }
}
