# What the pages say: their tables, and of a stage its syntax, its streams and an example.

# The tables of the pages, and the heads of what to do about a stall: wrong, argued and when by number, with what to do about it in remedy,
# mending and help; does and page by name of stage; lint_says and lint_help by the word of a line.
function read_pages() {
    head["| n | what is wrong | the place | what to do |"] = "refusals"
    head["| k | what is wrong with an argument | what to do |"] = "arguments"
    head["| status | text | when | what to do |"] = "statuses"
    head["| stage | what it does | its page |"] = "stages"
    head["| it waits for | that is |"] = "waits"
    head["| the line | what it says | what to do |"] = "lints"
    read_page("GUIDE.md")
    read_page("stalls.md")
}

function read_page(name,   line, row, table, part_name) {
    while ((getline line <(docs "/" name)) > 0) {
        if (line ~ /^## /)
            part_name = substr(line, 4)
        if (line in head)
            table = head[line]
        else if (line !~ /^\|/)
            table = ""
        else if (table != "" && line !~ /^\|---/) {
            split(line, row, /\|/)
            read_row(table, trim(row[2]), trim(row[3]), trim(row[4]), trim(row[5]))
        }
        if (name == "stalls.md" && part_name == "What to do" && match(line, /^\*\*[^*]*\*\*/))
            read_advice(substr(line, 3, RLENGTH - 4))
    }
    close(docs "/" name)
}

# What to do is told by a word of its head.
function read_advice(text,   word, k) {
    for (k = split("order BUFFER ELASTIC each back", word, " "); k > 0; k--)
        if (index(text, word[k]))
            advice[word[k]] = text
}

function read_row(table, key, first, second, third) {
    if (table == "refusals") {
        sub(/\..*/, "", key)
        sub(/; see below/, "", first)
        wrong[key] = first
        spot[key] = second
        remedy[key] = plain(third)
    } else if (table == "arguments") {
        argued[key] = first
        mending[key] = plain(second)
    } else if (table == "statuses") {
        when[key] = plain(second)
        help[key] = plain(third)
    } else if (table == "stages") {
        gsub(/`/, "", key)
        does[key] = first
        page[key] = plain(second)
        page_file[key] = second
        gsub(/^.*\(|\).*$/, "", page_file[key])
        names[++known] = key
    } else if (table == "waits") {
        gsub(/`/, "", key)
        sub(/^[A-Z][^:]*: /, "", first)
        waited[key] = first
    } else if (table == "lints") {
        gsub(/`/, "", key)
        lint_says[lint_key(key)] = plain(first)
        lint_help[lint_key(key)] = plain(second)
    }
}

# A text of a page without its links, and with where the part of the guide is that it names.
function plain(text,   link) {
    while (match(text, /\[[^]]*\]\([^)]*\)/)) {
        link = substr(text, RSTART + 1, RLENGTH - 2)
        sub(/\]\(/, " (docs/", link)
        text = substr(text, 1, RSTART - 1) link ", and `man\001pipe`)" substr(text, RSTART + RLENGTH)
    }
    sub(/"[A-Z][^"]*"/, "& (docs/GUIDE.md, and `man\001pipe`)", text)
    return text
}

function without_links(text,   link) {
    while (match(text, /\[[^]]*\]\([^)]*\)/)) {
        link = substr(text, RSTART + 1, RLENGTH)
        sub(/\].*/, "", link)
        text = substr(text, 1, RSTART - 1) link substr(text, RSTART + RLENGTH)
    }
    return text
}

# What the page of a stage says of it: the lines of its syntax, the rows of its table of streams, the first paragraph behind that, the rows of
# items and the like, and the lines of an example, with what makes the files that it reads. An example of another part of the page stands in where
# its own part has none.
function learn_stage(name,   file, line, fenced, inside, again, k) {
    syntaxes = rows = terms = shown_lines = 0
    about = ""
    file = docs "/" page_file[name]
    for (again = 0; again < 2 && !shown_lines; again++) {
        inside = again
        fenced = block = 0
        while ((getline line <file) > 0)
            if (line ~ /^```/) {
                if (fenced && inside && !shown_lines && is_example(name))
                    show_example(name)
                fenced = line ~ /^```console/ || (!fenced && line != "```")
                if (!fenced)
                    keep_makers()
                block = 0
            } else if (fenced)
                in_block[++block] = line
            else if (line ~ /^## /)
                inside = again
            else if (!syntaxes && line ~ /^    / && named_first(line) == name) {
                inside = 1
                syntax[++syntaxes] = substr(line, 5)
            } else if (inside && !again)
                read_part(line)
        close(file)
    }
}

function named_first(line,   word) {
    split(line, word, " ")
    return word[1]
}

# A line of the part of a stage that is no example.
function read_part(line,   row) {
    if (line ~ /^    / && !rows && about == "")
        syntax[++syntaxes] = substr(line, 5)
    else if (line ~ /^\| (in|out)put / && about == "") {
        split(line, row, /\|/)
        stream_row[++rows] = trim(row[2])
        stream_text[rows] = without_links(trim(row[3]))
    } else if (line ~ /^[^| #`]/ && about == "")
        about = without_links(line)
    else if (line ~ /^\| (item|source|place|value) \|/)
        in_terms = 1
    else if (line !~ /^\|/)
        in_terms = 0
    else if (in_terms && line !~ /^\|---/) {
        gsub(/`/, "", line)
        split(line, row, /\|/)
        term[++terms] = trim(row[2])
        term_text[terms] = trim(row[3])
    }
}

# Whether the block is one in which the stage runs, and nothing is refused.
function is_example(name,   k, runs) {
    for (k = 1; k <= block; k++) {
        if (in_block[k] ~ /^(spec|code|stall|spent)/)
            return 0
        runs += is_call(in_block[k], name)
    }
    return runs
}

# Whether the line calls the program with the stage.
function is_call(line, name) {
    return line ~ /^\$ (.* )?pipe / && line ~ ("[ \047|]" name "[ \047|]")
}

# Which line of the page makes a file, for each that was made up to here.
function keep_makers(   k, line) {
    for (k = 1; k <= block; k++) {
        line = in_block[k]
        if (line ~ /^\$ printf .* > [a-z]+$/) {
            sub(/.* /, "", line)
            maker[line] = in_block[k]
        }
    }
}

# Takes commands of the block with what they write, until there is enough.
function show_example(name,   k, line, command, found) {
    for (k = 1; k <= block; k++) {
        if (in_block[k] ~ /^\$ / && found && (k > 8 || shown_lines > 8))
            break
        line = in_block[k]
        if (line ~ /^\$ /)
            for (; match(line, /< [a-z]+/); line = substr(line, RSTART + RLENGTH))
                bring(substr(line, RSTART + 2, RLENGTH - 2))
        line = in_block[k]
        found += is_call(line, name)
        example[++shown_lines] = line
        if (line ~ /^\$ printf .* > [a-z]+$/) {
            sub(/.* /, "", line)
            made_here[line] = 1
        }
    }
}

# Puts what makes a file before what reads it.
function bring(file) {
    if (file in maker && !(file in made_here)) {
        example[++shown_lines] = maker[file]
        made_here[file] = 1
    }
}
