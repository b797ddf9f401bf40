# A stage as --stage shows it, and names that are none of a stage.

# The names that are no stages, or those of others elsewhere: instead is what serves in the place of each. A line of the file has such names, a colon,
# and what serves.
function read_other_names(file,   line, at_colon, name, j) {
    while ((getline line <file) > 0) {
        at_colon = index(line, ": ")
        for (j = split(substr(line, 1, at_colon - 1), name, " "); j > 0; j--)
            instead[name[j]] = with_whole_code(substr(line, at_colon + 2))
    }
    close(file)
}

# The text, whose parts in quotes are not cut at the end of a line.
function with_whole_code(text,   piece, k, all) {
    all = ""
    for (k = 1; k <= split(text, piece, "`"); k++)
        all = all (k > 1 ? "`" : "") (k % 2 ? piece[k] : kept_together(piece[k]))
    return all
}

# What the words of a syntax stand for.
function tell_terms(   text, k) {
    text = ""
    for (k = 1; k <= syntaxes; k++)
        text = text " " syntax[k] " "
    gsub(/[][|*]/, " ", text)
    if (text ~ / (range|columns) /)
        say("", "A range is columns `n`, `n-m`, `n-*` or `n.len`" (text ~ / range / ? "; behind `word` or `field` it counts these." : "."))
    if (text ~ / (string|\/string\/) /)
        say("", "A string stands between two delimiters, as `/apple/`, or is a small `x` and hexadecimal digits, as `x4A`.")
    if (text ~ / byte /)
        say("", "A byte is a string of length 1, as `/./`.")
    if (text ~ / text /)
        say("", "The text is all behind one blank, without delimiters.")
}

# The syntax of a stage, as its page has it.
function tell_syntax(name,   k) {
    learn_stage(name)
    for (k = 1; k <= syntaxes; k++)
        say(k == 1 ? "Its syntax:" : "", "`" kept_together(syntax[k]) "`")
    tell_terms()
}

# A stage as its page has it, on a screen.
function show_stage(word,   name, k) {
    name = tolower(word)
    if (name == "synchronize")
        name = "synchronise"
    if (!(name in does)) {
        if (name in instead)
            say("Instead:", no_stage(word) " " instead[name])
        else {
            say("The name:", no_stage(word))
            tell_near(name)
            say("What to do:", remedy[11])
        }
        return 1
    }
    say("The stage:", "`" name "` " does[name] ".")
    tell_syntax(name)
    for (k = 1; k <= rows; k++)
        say(k == 1 ? "Its streams:" : "", stream_row[k] ": " stream_text[k])
    say("About it:", about)
    for (k = 1; k <= terms; k++)
        say("", "`" kept_together(term[k]) "`: " term_text[k])
    if (name in instead)
        say("Besides:", instead[name])
    print ""
    for (k = 1; k <= shown_lines; k++)
        print "    " example[k]
    print ""
    say("Its page:", page[name] ".")
    return 0
}

function no_stage(word) {
    return "No stage has the name " quoted(word) "."
}

# The names that are near one that nobody knows.
function tell_near(name,   k, best, far, all) {
    if (name ~ /[\001-\037]/)
        say("The name:", quoted(name) ". A tab or a line feed is no blank.")
    gsub(/[\001-\037]/, "", name)
    if (name ~ /^[<>]./)
        say("The name:", "A blank stands behind `" substr(name, 1, 1) "`.")
    best = length(name) > 5 ? 2 : 1
    for (k = 1; k <= known; k++) {
        far = length(name) > 40 || length(name) < 3 || length(names[k]) < 3 ? 9 : distance(name, names[k])
        if (index(name, names[k]) == 1 || length(name) > 2 && index(names[k], name) == 1)
            far = 1
        if (far < best) {
            best = far
            all = ""
        }
        if (far == best)
            all = all (all == "" ? "" : ", ") "`" names[k] "`"
    }
    if (all != "")
        say("Near it:", all ".")
}

# How many bytes are to be put in, taken out or changed to make one word of the other.
function distance(a, b,   i, j, row, before, least, one) {
    for (j = 0; j <= length(b); j++)
        row[j] = j
    for (i = 1; i <= length(a); i++) {
        before = row[0]
        row[0] = i
        for (j = 1; j <= length(b); j++) {
            one = before + (substr(a, i, 1) != substr(b, j, 1))
            before = row[j]
            least = row[j] < row[j - 1] ? row[j] + 1 : row[j - 1] + 1
            row[j] = one < least ? one : least
        }
    }
    return row[length(b)]
}
