# What is wrong with a specification, and what is to be done.

function explain_refusal(line, numbered, argued_as, at_byte,   number, piece, stage, todo) {
    number = numbered
    sub(/\..*/, "", number)
    print line
    if (!(number in wrong) || argued_as != "" && !(argued_as in argued)) {
        print "pipe-explain: no fault has this number" >"/dev/stderr"
        return 1
    }
    if (!specs) {
        print "pipe-explain: there is no specification among the words" >"/dev/stderr"
        return 1
    }
    if (at_byte > length(spec)) {
        print "pipe-explain: the specification has only " length(spec) " bytes, so it is not the one that was refused" >"/dev/stderr"
        return 1
    }
    mark(at_byte)
    tell_line_feeds()
    say("What is wrong:", wrong[number] (argued_as == "" ? "" : " " argued[argued_as]))
    say("The place:", "byte " at_byte (spot[number] ~ /^[0-9]/ ? "" : ", " spot[number]) ".")
    read_spec()
    piece = number + 0 > 10 || number == 6 ? piece_at(at_byte) : 0
    stage = piece in stage_at ? stage_at[piece] : -1
    todo = argued_as == "" ? remedy[number] : mending[argued_as]
    if (number == 6 && piece)
        todo = both_ways(text_of(piece)) "Else " tolower(substr(todo, 1, 1)) substr(todo, 2)
    if (number == 11 && stage >= 0) {
        if (tolower(name_of(stage)) in instead)
            say("Instead:", instead[name_of(stage)])
        else
            tell_near(name_of(stage))
    } else if (stage >= 0) {
        tell_stage(stage)
        if (number == 13)
            say("The stream:", "The label stands here for stream " uses[piece] " of the stage.")
        if (number == 12) {
            tell_syntax(name_of(stage) == "synchronize" ? "synchronise" : name_of(stage))
            todo = about_argument(stage, argued_as, word_at(at_byte, piece_end[piece]), todo)
        }
        if (number == 12 || number == 13)
            todo = todo (todo == "" ? "" : " ") "See " page[name_of(stage)] "."
    }
    say("What to do:", todo)
    return 0
}

# A text in quotes over several lines has line feeds, which most often nobody means.
function tell_line_feeds() {
    if (index(spec, "\n"))
        say("Line feeds:", "The text has line feeds, and each is a byte like any other, not a blank: it belongs to the name, the word or the text beside it. Write it in one line; or keep it in a file, whose lines `pipe-file` joins by blanks.")
}

# What is to be done where a label is followed by what it was not meant to define.
function both_ways(text,   at_colon) {
    at_colon = index(text, ":")
    return "Where another stream of its stage is meant, a separator is missing behind the label: `" kept_together(shown(substr(text, 1, at_colon), 12) " " separator " " shown(trim(substr(text, at_colon + 1)), 30)) "`. "
}

# The word at a place.
function word_at(at_byte, end,   text) {
    text = substr(spec, at_byte + 1, end - at_byte)
    sub(/ .*/, "", text)
    return text
}

# What is to be done about a word of the arguments of a stage, whose syntax was read.
function about_argument(stage, argued_as, word, todo,   name, text, delimiter, list, k, near) {
    name = tolower(word)
    if (argued_as == 1)
        return todo
    if (name in does || name ~ /^[<>]/) {
        word = shown(word, 40)
        text = " separator is missing before it: `" separator "\001" word "`."
        return argued_as == 2 ? "A" text : todo " Where `" word "` is to be a stage, a" text
    }
    if (may_be_chosen(word) && word !~ /[<>\/]/ && argued_as == 2)
        return quoted(word) " is no separator here: `(sep\001" word ")` at the front of the specification makes it one, and `(endchar\001" word ")` the end of a pipeline."
    if (argued_as == 5 && word ~ /^\(/)
        return "A range stands without parentheses. What begins with a `(` is a string up to the next `(`."
    text = argument[piece_of[stage]]
    if (name_of(stage) == "change" && argued_as == 3 && match(text, /[^A-Za-z0-9 ][^ ]* +[^A-Za-z0-9 ][^ ]*$/)) {
        split(trim(substr(text, RSTART)), list, / +/)
        delimiter = substr(list[1], 1, 1)
        if (substr(list[2], 1, 1) == delimiter)
            return "Both strings have one delimiter between them: `change\001" shown(list[1] substr(list[2], 2), 40) "`."
    }
    near = ""
    for (k = split(keywords(), list, " "); k > 0; k--) {
        if (list[k] == name)
            return "The word is one of the stage, but not at this place: write the words in the order of the syntax."
        if (index(name, list[k]) == 1 || (length(name) > 2 && distance(name, list[k]) < 2) || (name ~ /^-[a-z]/ && index(list[k], substr(name, 2)) == 1))
            near = near (near == "" ? "" : ", ") "`" list[k] "`"
    }
    if (name ~ /^-[a-z]/ && name_of(stage) != "specs")
        todo = "No word of a stage begins with a `-`. " todo
    return (near == "" ? "" : "Perhaps " near " is meant. ") todo
}

# The words that the syntax has as they are to be written, with blanks between them.
function keywords(   text, k, word, count, all) {
    text = ""
    for (k = 1; k <= syntaxes; k++)
        text = text substr(syntax[k], index(syntax[k] " ", " "))
    gsub(/[][|*.]/, " ", text)
    all = ""
    for (k = split(text, word, " "); k > 0; k--)
        if (word[k] !~ /^(range|columns|string|byte|text|name|n|items|\/.*)$/)
            all = all " " word[k]
    return all
}
