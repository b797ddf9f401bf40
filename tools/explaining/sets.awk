# Many sets: each that has another status than 0, with its line of the file.

function is_set_line(line) {
    return line ~ /^set [0-9]+ status [0-9]+$/
}

# Explains the text of each set as that of a call of its own, where the file of sets can be read once more, and else the status. It says nothing where
# there is no such text.
function explain_sets(count,   k, word, first, number, text, is_read) {
    for (first = 1; first <= count && !is_set_line(all_lines[first]); first++)
        ;
    if (first > count)
        return 0
    is_read = read_sets()
    for (k = 1; k < (is_read ? first : count); k++)
        print all_lines[k]
    if (!is_read) {
        explain_status(all_lines[count], 14)
        return 1
    }
    for (k = first; k <= count; k++) {
        if (is_set_line(all_lines[k])) {
            if (k > first)
                explain_set(number, text)
            print (k > first ? "\n" : "") all_lines[k]
            split(all_lines[k], word, " ")
            number = word[2]
            text = ""
        } else
            text = text all_lines[k] "\n"
    }
    explain_set(number, text)
    return 1
}

# Reads the specifications of the sets. A device or a pipe may not be read once more.
function read_sets(   count, line) {
    if (sets_file == "" || !is_file(sets_file, "-f") || !is_file(sets_file, "-r"))
        return 0
    while (count < 256 && (getline line <path_of(sets_file)) > 0)
        set_spec[++count] = line
    close(path_of(sets_file))
    return count
}

# This tool explains the text of one set, whose specification is among its words.
function explain_set(number, text,   call, line) {
    if (!(number in set_spec)) {
        printf "%s", text
        return
    }
    say("The set:", number ", " quoted(set_spec[number]) ".")
    call = "printf %s " in_quotes(text) " | " in_quotes(this_tool) " -- " in_quotes(set_spec[number])
    while ((call | getline line) > 0)
        print line
    close(call)
}

# The file of sets that was refused, and how many lines it may have.
function tell_sets_file(line,   word) {
    split(line, word, " ")
    say("The file:", quoted(sets_file) "." (word[2] == "line" ? " With so many steps for each set it may have " word[3] - 1 (word[3] == 2 ? " line." : " lines.") : ""))
}
