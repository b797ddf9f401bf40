# The words of a call, as pipe reads them.

# Reads the words as pipe does: spec is the specification, specs how many there are, misused what is wrong.
function read_words(count,   k, word, option, value, ended, seen, has) {
    for (k = 2; k < count; k++) {
        word = ARGV[k]
        if (!is_utf8(word))
            blame(quoted(word) " has bytes that are not UTF-8.")
        if (ended || word !~ /^-./) {
            specs++
            if (specs == 1)
                spec = word
            listed = listed (specs > 1 ? ", " : "") quoted(word)
            continue
        }
        if (word == "--") {
            ended = 1
            continue
        }
        option = word
        has = index(word, "=")
        if (has)
            option = substr(word, 1, has - 1)
        if (option !~ /^--(workers|steps|trace|check|lint|sample|sets)$/) {
            blame(quoted(word) " is no option.")
            continue
        }
        if (seen[option]++)
            blame("`" option "` stands twice.")
        if (option == "--lint") {
            if (has)
                blame("`--lint` takes no value.")
            continue
        }
        if (!has && (k + 1 >= count || ARGV[k + 1] ~ /^-./)) {
            blame("`" option "` has no value.")
            continue
        }
        value = has ? substr(word, has + 1) : ARGV[++k]
        judge(option, value)
    }
    sampled = seen["--sample"]
    if (specs > 1 && count > 2 && ARGV[2] ~ /^(.*\/)?pipe$/)
        blame("The words are those behind `pipe`, without it.")
    else if (specs > 1)
        blame("There are " specs " words where one specification should be: " listed ". Quotes around the whole make one word of it.")
    if (!specs && !sampled && !seen["--sets"])
        blame("There is no specification.")
    if (seen["--check"] && (sampled || seen["--sets"] || seen["--lint"] || seen["--trace"] || seen["--steps"] || seen["--workers"]))
        blame("`--check` stands without other options.")
    else if (seen["--lint"] && (sampled || seen["--sets"] || seen["--trace"] || seen["--steps"] || seen["--workers"]))
        blame("`--lint` stands without other options.")
    if (sampled && seen["--trace"])
        blame("`--sample` stands without `--trace`.")
    if (seen["--sets"] && sampled)
        blame("`--sets` stands without `--sample`.")
    if (seen["--sets"] && seen["--trace"])
        blame("`--sets` stands without `--trace`.")
    if (specs && sampled)
        blame("`--sample` stands without a specification.")
    if (specs && seen["--sets"])
        blame("`--sets` stands without a specification.")
}

function blame(text) {
    misused = misused (misused == "" ? "" : " ") text
}

# Whether an option may have the value.
function judge(option, value,   most) {
    if (option == "--trace" || option == "--check" || option == "--sets") {
        if (value == "" || length(value) > 255)
            blame("The name behind `" option "` has 1 to 255 bytes.")
        if (option == "--check")
            journal = value
        else if (option == "--sets")
            sets_file = value
        else
            kept = value
        return
    }
    most = option == "--workers" ? 64 : option == "--steps" ? 50000000 : 200000
    if (value !~ /^[0-9]+$/ || length(value) > 10 || value + 0 < 1 || value + 0 > most)
        blame("The number behind `" option "` is " quoted(value) ", and should be 1 to " most ".")
}
