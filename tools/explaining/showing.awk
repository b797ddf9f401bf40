# What is shown of texts and of the specification: lines of 80 columns, and a mark under a place.

function trim(text) {
    gsub(/^ +| +$/, "", text)
    return text
}

function kept_together(text) {
    gsub(/ /, "\001", text)
    return text
}

# Writes a text behind its head, in lines of at most 80 columns. A blank that keeps its words together is \001.
function say(head, text,   word, count, k, line, size) {
    line = sprintf("%-14s", head)
    size = 14
    count = split(text, word, " ")
    for (k = 1; k <= count; k++) {
        if (size + 1 + columns_of(word[k]) > 80 && size > 14) {
            put(line)
            line = "              "
            size = 14
        }
        line = line " " word[k]
        size += 1 + columns_of(word[k])
    }
    put(line)
}

function put(line) {
    gsub(/\001/, " ", line)
    print line
}

function columns_of(text) {
    gsub(/[\200-\277]/, "", text)
    return length(text)
}

# Cuts a text of the specification into cells: what is shown of a byte or of a letter of UTF-8, its columns and its
# place. Bytes that would not be seen as they are become \t, \n, \r or a backslash with an octal number.
function cells(text, from,   size, i, count, byte, number, long) {
    size = length(text)
    count = 0
    for (i = 1; i <= size; i += long) {
        byte = substr(text, i, 1)
        number = code[byte]
        long = 1
        count++
        at[count] = from + i - 1
        if (number >= 32 && number < 127) {
            cell[count] = byte
            wide[count] = 1
        } else if (number >= 194 && (long = seen_size(text, i)) > 1) {
            cell[count] = substr(text, i, long)
            wide[count] = columns(letter_code)
        } else {
            long = 1
            cell[count] = number == 9 ? "\\t" : number == 10 ? "\\n" : number == 13 ? "\\r" : sprintf("\\%03o", number)
            wide[count] = length(cell[count])
        }
    }
    at[count + 1] = from + size
    return count
}

# How many bytes a letter has that begins there and is seen, and else 1.
function seen_size(text, i,   long, number) {
    long = letter_size(text, i)
    number = letter_code
    if (!long || number < 160 || number >= 8203 && number <= 8207 || number >= 8232 && number <= 8238 || number >= 8294 && number <= 8297)
        return 1
    return long
}

# How many columns a letter takes.
function columns(number) {
    if (number >= 768 && number < 880 || number >= 65024 && number < 65040)
        return 0
    if (number >= 4352 && number < 4448 || number >= 11904 && number < 42192 || number >= 44032 && number < 55204)
        return 2
    if (number >= 63744 && number < 64256 || number >= 65072 && number < 65136 || number >= 65280 && number < 65377)
        return 2
    return number >= 127744 && number < 129792 || number >= 131072 ? 2 : 1
}

function repeated(text, count,   all) {
    all = ""
    while (count-- > 0)
        all = all text
    return all
}

# A text of the specification in so many columns, as one word of say.
function shown(text, room,   count, k, size, all) {
    count = cells(substr(text, 1, 4 * room), 0)
    all = ""
    size = 0
    for (k = 1; k <= count; k++) {
        size += wide[k]
        if (size > room)
            return all "..."
        all = all (cell[k] == " " ? "\001" : cell[k])
    }
    return all (length(text) > 4 * room ? "..." : "")
}

function quoted(text) {
    return "`" shown(text, 40) "`"
}

# Shows the line of the specification in which a place is, with a mark under the place.
function mark(place,   size, from, to, count, k, low, high, used, line, column, lines, i) {
    size = length(spec)
    for (from = place; from > 0 && substr(spec, from, 1) != "\n"; from--)
        ;
    for (to = place; to < size && substr(spec, to + 1, 1) != "\n"; to++)
        ;
    lines = 1
    for (i = 1; i <= from; i++)
        lines += substr(spec, i, 1) == "\n"
    count = cells(substr(spec, from + 1, to - from), from)
    used = 0
    for (k = 1; k <= count; k++)
        used += wide[k]
    for (k = 1; k <= count && at[k + 1] <= place; k++)
        ;
    low = 1
    high = count
    if (used > 75) {
        low = high = k > count ? count : k
        used = wide[low]
        while (low > 1 && used + wide[low - 1] <= 35)
            used += wide[--low]
        while (high < count && used + wide[high + 1] <= 69)
            used += wide[++high]
        while (low > 1 && used + wide[low - 1] <= 69)
            used += wide[--low]
    }
    line = low > 1 ? "..." : ""
    column = length(line)
    for (i = low; i <= high; i++) {
        line = line cell[i]
        if (i < k)
            column += wide[i]
    }
    print ""
    if (index(spec, "\n"))
        print "Line " lines " of the specification:"
    print "    " line (high < count ? "..." : "")
    print "    " repeated(" ", column) repeated("^", k <= count && wide[k] > 1 ? wide[k] : 1)
    print ""
}
