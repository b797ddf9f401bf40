# The specification: its strands, who of them reads and writes what, and how they are named.

# Reads the specification, whose stages have numbers from 0.
function read_spec() {
    read_specification(spec)
    lay_links()
}

# The text of a piece as it stands in the specification.
function text_of(piece) {
    return substr(spec, piece_place[piece] + 1, piece_end[piece] - piece_place[piece])
}

# Who reads each output and who writes to each input, strand by strand, and the piece before each output.
function lay_links(   e, s, from, to, out, inlet) {
    for (e = 0; e < streams; e++) {
        from = first_strand[source[e]]
        out = output[e]
        if (name_of(source[e]) == "dam") {
            from += out
            out = 0
        } else if (name_of(source[e]) == "elastic")
            from++
        to = first_strand[target[e]]
        inlet = input[e]
        if (name_of(target[e]) == "dam") {
            to += inlet
            inlet = 0
        }
        link(from, out, to, inlet)
        left_of[from, out] = target_piece[e] - 1
    }
    for (s = 0; s < stages; s++)
        if (name_of(s) == "elastic")
            link(first_strand[s], 0, first_strand[s] + 1, 0)
}

function link(from, out, to, inlet) {
    reader[from, out] = to
    writer[to, inlet] = from
    if (inputs[to] < inlet + 1)
        inputs[to] = inlet + 1
}

# A stage as it stands in the specification.
function stage_text(stage) {
    return quoted(text_of(piece_of[stage]))
}

function strand_text(strand,   stage) {
    stage = owner[strand]
    if (name_of(stage) == "elastic")
        return "the part of " stage_text(stage) (part[strand] ? " that writes" : " that takes")
    if (name_of(stage) == "dam")
        return "stream " part[strand] " of " stage_text(stage)
    return stage_text(stage)
}

function numbered_text(strand) {
    return strand ", " strand_text(strand)
}

# The argument of a stage without the blanks at its ends.
function words_of(stage) {
    return trim(argument[piece_of[stage]])
}

# What is said of a stage.
function tell_stage(stage,   text) {
    text = first_strand[stage] ", " stage_text(stage)
    if (name_of(stage) in does)
        text = text "; `" name_of(stage) "` " does[name_of(stage)]
    say("The stage:", text ".")
}

# The piece in which a place is or at whose end it is; 0 where there is none.
function piece_at(at_byte,   k) {
    for (k = 1; k <= pieces; k++)
        if (piece_place[k] <= at_byte && at_byte <= piece_end[k])
            return k
    return 0
}
