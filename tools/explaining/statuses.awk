# The other statuses, with what stands at a name, and refused journals.

# A status, with what can be said of this specification.
function explain_status(line, number,   k, all, replaced) {
    print line
    print ""
    if (number)
        tell_line_feeds()
    say("Status:", number ".")
    say("When:", when[number])
    if (help[number] != "")
        say("What to do:", help[number])
    if (number == 9 && misused != "")
        say("The words:", misused)
    if (number == 7)
        tell_name(substr(line, 13))
    if (number == 7 && line == "shelf fault " kept)
        say("The option:", "`--trace` has this name.")
    if (number == 7 && line == "shelf fault " journal)
        say("The option:", "`--check` has this name.")
    if (number == 7 && line == "shelf fault " sets_file)
        say("The option:", "`--sets` has this name.")
    if (number == 15 && sets_file != "")
        tell_sets_file(line)
    if (number == 11 && journal != "")
        explain_journal(line)
    if (!specs || number == 11)
        return 0
    read_spec()
    absent = 0
    for (k = 0; k < stages; k++)
        absent += name_of(k) == "<" && !is_file(words_of(k), "-e")
    for (k = 0; k < stages; k++)
        if (is_meant(line, number, name_of(k), words_of(k))) {
            all = all (all == "" ? "" : ", ") stage_text(k)
            replaced = replaced || name_of(k) == ">"
        }
    if (number == 7 && (replaced || line == "shelf fault " kept))
        tell_room(substr(line, 13))
    if (all != "")
        say("Stages:", all ".")
    return 0
}

# Whether a stage may be the one that a text is about.
function is_meant(line, number, name, words) {
    if (line == "code 28")
        return name == "<" && !(absent && is_file(words, "-e"))
    if (line == "code 8")
        return name == "specs" || (name == "block" || name == "deblock") && tolower(words) ~ /(^| )sf( |$)/
    if (number == 7)
        return (name == "<" || name == ">") && "shelf fault " words == line
    return 0
}

# What stands at a name that was refused, where that can be seen.
function tell_name(name,   text) {
    text = is_file(name, "-d") ? "a folder" : is_file(name, "-h") && !is_file(name, "-e") ? "a link that leads to nothing" : \
        !is_file(name, "-e") ? "not there" : !is_file(name, "-r") ? "what you may not read" : !is_file(name, "-w") ? "what you may not write" : ""
    if (text != "")
        say("NAME is:", text ".")
}

# How much room there is for a new file in the place of a name, and how many such files were left there.
function tell_room(name,   call, line, left) {
    call = "{ name=" in_quotes(path_of(name)) "; cd -- \"$(dirname -- \"$(readlink -f -- \"$name\" || echo \"$name\")\")\" && df -Pk . && ls -A; } 2>/dev/null"
    left = 0
    while ((call | getline line) > 0)
        if (match(line, /[0-9]+ +[0-9]+% /)) {
            line = substr(line, RSTART)
            sub(/ .*/, "", line)
            say("Free space:", line " KiB in the folder of NAME.")
        } else
            left += line ~ /^\.pipe-new-[0-9]+$/
    close(call)
    if (left)
        say("Left there:", left (left == 1 ? " file" : " files") " `.pipe-new-K`, of runs that were killed. When no `pipe` runs in that folder, remove " (left == 1 ? "it." : "them."))
}

# Whether a test of the shell finds so of a name.
function is_file(name, of) {
    return !system("test " of " " in_quotes(path_of(name)))
}

# A name that is not taken for an option or for standard input.
function path_of(name) {
    return (name ~ /^\// ? "" : "./") name
}

# What a refusal of the journal is about: its name, its line, or the stage of its step.
function explain_journal(line,   path, word, number, found, text, before, ended, i) {
    say("The journal:", quoted(journal) ".")
    split(line, word, " ")
    if (word[2] == "absent")
        return
    # A device or a pipe may not be read once more.
    if (!is_file(journal, "-f") || !is_file(journal, "-r"))
        return
    path = path_of(journal)
    number = word[3] + (word[2] == "entry")
    before = ""
    for (i = 1; i <= number && (getline text <path) > 0; i++) {
        found = i
        ended = before ~ /^end /
        if (i < number)
            before = text
    }
    close(path)
    if (word[2] == "entry")
        explain_step(word[3], found == number ? text : "")
    else if (found < number)
        say("The line:", "It isn\047t there, or has no line feed: the last line is `end n`.")
    else {
        say("The line:", quoted(text) ".")
        if (number == 1)
            say("", "The first line is `pipe-journal 1`.")
        else if (ended)
            say("", "Nothing stands behind the line `" before "`.")
        else if (text ~ /^end [0-9]+$/)
            say("", "Before it stand so many steps: " number - 2 ".")
        else
            say("", "Each line but the first is that of a step, which has two numbers with a blank between them, or `end n`, n being how many steps there are.")
    }
}

# A word for the shell.
function in_quotes(word) {
    gsub(/\047/, "\047\\\047\047", word)
    return "\047" word "\047"
}

# Of which stage a step of the journal is, and the lines of its table up to this one.
function explain_step(number, text,   word, strand, call, line, lines) {
    if (text !~ /^[0-9]+ [0-9]+$/ || !specs)
        return
    read_spec()
    split(text, word, " ")
    strand = word[1]
    say("The step:", number ", of stage " (strand in owner ? numbered_text(strand) : strand ", which there isn\047t") ".")
    if (number > 1)
        say("", "Those before it can be taken.")
    if (strand in owner)
        mark(piece_place[piece_of[owner[strand]]])
    else
        print ""
    if (table_tool == "")
        return
    call = in_quotes(table_tool) " -- " in_quotes(spec) " " in_quotes(journal) " 2>/dev/null"
    while ((call | getline line) > 0 && lines++ <= number)
        if (lines == 1 || lines > number - 3)
            print "    " shown_line(line)
    close(call)
}

# A line of a table, of which so much is shown as a terminal has room for.
function shown_line(line) {
    return columns_of(line) > 76 ? substr(line, 1, 73) "..." : line
}
