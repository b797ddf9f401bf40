# Reads the text, and tells what it is about.

# The status of a text, and nothing where it is no text of pipe.
function status_of(line) {
    if (line == "code -4095")
        return 3
    if (line ~ /^code -?[0-9]+$/)
        return 1
    if (line ~ /^spent [0-9]+$/)
        return 4
    if (line == "read fault")
        return 5
    if (line == "write fault")
        return 6
    if (line ~ /^shelf fault /)
        return 7
    if (line == "out of memory")
        return 8
    if (line ~ /^usage: pipe /)
        return 9
    if (line == "input too large")
        return 10
    if (line == "journal absent" || line ~ /^journal (line|entry) [0-9]+$/)
        return 11
    if (is_set_line(line))
        return 14
    if (line == "sets absent" || line ~ /^sets line [0-9]+$/)
        return 15
    return ""
}

# Reads the text, and tells what it is about; other lines are written as they are.
function explain(   line, count, k, found, status, is_stall) {
    count = 0
    while ((getline line) > 0)
        all_lines[++count] = line
    if (running && match(all_lines[count], /\001[0-9]+$/)) {
        ending_status = substr(all_lines[count], RSTART + 1)
        all_lines[count] = substr(all_lines[count], 1, RSTART - 1)
        count -= RSTART == 1
    }
    # A run that was ended from outside, or that ended well, has nothing that could be explained.
    if (running && (ending_status == "" || ending_status == 0 && !count)) {
        for (k = 1; k <= count; k++)
            print all_lines[k]
        return 0
    }
    if (explain_sets(count))
        return 0
    for (k = 1; k <= count; k++)
        if (all_lines[k] == "stall" || all_lines[k] ~ /^wait [0-9]+ [^ ]+ (read|write|commit|join) -?[0-9]+$/ || all_lines[k] ~ /^wait [0-9]+ [^ ]+ (any|gate|primed)$/)
            is_stall = 1
    for (k = 1; k <= count; k++) {
        line = all_lines[k]
        if (is_stall && line == "stall")
            ;
        else if (is_stall && line ~ /^wait [0-9]+ [^ ]+ [a-z]/)
            read_wait(line)
        else if (is_stall && line == "code -4095")
            ending = line
        else if (found == "" && (line ~ /^spec [0-9]+(\.[0-9]+)? at [0-9]+$/ || status_of(line) != "" || is_lint(line)))
            found = line
        else
            print line
    }
    if (is_stall)
        return explain_stall()
    if (found ~ /^spec /) {
        k = ""
        if (match(found, /\.[0-9]+/))
            k = substr(found, RSTART + 1, RLENGTH - 1)
        split(found, place_words, " ")
        return explain_refusal(found, place_words[2], k, place_words[4] + 0)
    }
    if (is_lint(found))
        return explain_lint(found)
    if (found != "")
        return explain_status(found, status_of(found))
    if (running && ending_status + 0 in when)
        return explain_status("status " ending_status, ending_status + 0)
    if (!count && !running)
        return explain_status("nothing", 0)
    print "pipe-explain: " (count ? "no line here is a text of pipe" : "it ended with status " ending_status " and without a text") >"/dev/stderr"
    return 1
}

BEGIN {
    docs = ENVIRON["EXPLAIN_DOCS"]
    table_tool = ENVIRON["EXPLAIN_TABLE"]
    this_tool = ENVIRON["EXPLAIN_SELF"]
    read_pages()
    read_other_names(ENVIRON["EXPLAIN_OTHERS"])
    if (ARGV[1] == "stage")
        exit show_stage(ARGV[2])
    if (ARGV[1] == "look")
        exit look(ARGV[2])
    running = ARGV[1] == 1
    specs = 0
    read_words(ARGC)
    ARGC = 1
    exit explain()
}
