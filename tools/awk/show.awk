# One row of docs/TRACE.md, with names.awk: where its sentence stands in document 01, each column under its heading, and
# for each name the file and the line. TRACE_ROW in the environment is what is asked for, `width` the width of a line.
#
# Assumes: a cell has no | of its own.

function trim(text) {
    gsub(/^[ \t]+|[ \t]+$/, "", text)
    return text
}

# how wide a text is: the bytes that go on with a character are not counted
function wide(text) {
    gsub(/[\200-\277]/, "", text)
    return length(text)
}

function wrapped(text, indent,    w, n, i, line) {
    n = split(text, w, " ")
    for (i = 1; i <= n; i++) {
        if (line != "" && wide(indent line " " w[i]) > width) {
            print indent line
            line = ""
        }
        line = line (line == "" ? "" : " ") w[i]
    }
    if (line != "") print indent line
}

function named(code, file, name, line,    place) {
    if (file == "") place = code ": no such file"
    else if (!line) place = file ": has no " name
    else place = file (name == "" ? "" : ":" line ": " name)
    if (place in shown) return
    shown[place] = 1
    print "        " place
    if (file ~ /\.edit$/ && name == "") {
        getline name < file
        close(file)
        wrapped(name, "            ")
    }
}

# the place of a sentence in words: 1.2, t3, l2 or l2.1
function inWords(place,    part, sentence) {
    split(place, part, ".")
    sentence = part[2] == "" ? "" : ", sentence " part[2]
    if (place ~ /^t/) return "row " substr(part[1], 2) " of the table"
    if (place ~ /^l/) return "item " substr(part[1], 2) " of the list" sentence
    return "paragraph " part[1] sentence
}

function inDocument(row,    list, n, i, all) {
    if (!placed[row]) return docs ":" lineAt[row]
    n = split(place[row], list, /, /)
    for (i = 1; i <= n; i++) all = all (all == "" ? "" : "; ") inWords(list[i])
    return "document 01, \"" section[row] "\": " all "    (" docs ":" lineAt[row] ")"
}

# the cell above that says what `the same` means, with its row
function above(row, column) {
    while (cell[row, column] ~ /^the same/ && section[row - 1] == section[row]) row--
    return row
}

function show(row,    column, from) {
    home = homeOf[row]
    print nameOf(row)
    wrapped(inDocument(row), "")
    for (column = placed[row] ? 2 : 1; column <= columns[row]; column++) {
        print ""
        print heading[section[row], column]
        split("", shown)
        wrapped(cell[row, column], "    ")
        citations(cell[row, column])
        from = above(row, column)
        if (from == row) continue
        wrapped("(the same: " cell[from, column] ", as in " place[from] ")", "    ")
        citations(cell[from, column])
    }
}

function nameOf(row) {
    return section[row] (placed[row] ? " " : ", row ") place[row]
}

# whether a row has the place, among those it is of
function hasPlace(row, wanted,    list, n, i) {
    n = split(place[row], list, /, /)
    for (i = 1; i <= n; i++)
        if (list[i] == wanted) return 1
    return 0
}

# the section that a text names, by its whole heading or by how it begins; several with a newline, or nothing
function sectionOf(text,    i, all) {
    text = tolower(text)
    for (i = 1; i <= sections; i++)
        if (tolower(title[i]) == text) return title[i]
    for (i = 1; i <= sections; i++)
        if (index(tolower(title[i]), text) == 1) all = all (all == "" ? "" : "\n") title[i]
    return all
}

function complain(text) {
    print "tools/trace: " text | "cat 1>&2"
}

# the rows of a section, one a line, those alone whose place begins so
function listRows(of, start, to,    row, count) {
    for (row = 1; row <= rows; row++)
        if (section[row] == of && index(place[row], start) == 1) {
            print "    " place[row] "    " cell[row, placed[row] ? 2 : 1] | to
            count++
        }
    return count
}

# plain text, not a pattern: what is asked for may have any character
function endsIn(text, tail) {
    return length(text) >= length(tail) && substr(text, length(text) - length(tail) + 1) == tail
}

# rows whose functions are so called; as many as have just that name, else those whose name ends so
function byFunction(name, exact,    row, n, i, w, count) {
    for (row = 1; row <= rows; row++) {
        if (heading[section[row], 1] != "function") continue
        n = split(cell[row, 1], w, /[`:,]* +|`/)
        for (i = 1; i <= n; i++)
            if (w[i] == name || (!exact && (endsIn(w[i], "::" name) || endsIn(w[i], "_" name)))) {
                chosen[++count] = row
                calledSo[count] = w[i]
            }
    }
    return count
}

# the rows of a section at a place; answers how many
function byPlace(of, last,    row, found) {
    for (row = 1; row <= rows; row++)
        if (section[row] == of && hasPlace(row, last)) {
            if (found++) print "\n"
            show(row)
        }
    return found
}

# what a section has near a place: those of the same item, row or paragraph, else all
function near(of, last,    start) {
    complain("no row " last " in \"" of "\"; it has")
    match(last, /^[lt]?[0-9]+/)
    start = substr(last, 1, RLENGTH)
    if (!listRows(of, start, "cat 1>&2")) listRows(of, "", "cat 1>&2")
}

/^#/ { home = "" }
/^Files without a crate are of `crates\/[a-z_]+`/ { home = homeIn($0) }
/^## / { title[++sections] = trim(substr($0, 4)) }
/^\|/ && !inTable {
    n = split($0, head_, "|")
    for (i = 2; i < n; i++) heading[title[sections], i - 1] = trim(head_[i])
    count = 0
}
/^\|/ && inTable && !/^\|[-|]+$/ {
    n = split($0, part, "|")
    rows++
    section[rows] = title[sections]
    placed[rows] = heading[title[sections], 1] == "place"
    place[rows] = placed[rows] ? trim(part[2]) : ++count
    for (i = 2; i < n; i++) cell[rows, i - 1] = trim(part[i])
    columns[rows] = n - 2
    homeOf[rows] = home
    lineAt[rows] = FNR
}
{ inTable = /^\|/ }

# sections, or the names of functions, one a line: what was asked for is not plain
function offer(text, names) {
    complain(text)
    gsub(/\n/, "\n    ", names)
    print "    " names | "cat 1>&2"
    exit 1
}

END {
    docs = FILENAME
    wanted = trim(ENVIRON["TRACE_ROW"])
    of = sectionOf(wanted)
    if (of != "" && of !~ /\n/) {
        print of
        listRows(of, "", "cat")
        exit 0
    }
    if (of != "") offer("several sections begin so:", of)
    n = byFunction(wanted, 1)
    if (!n) n = byFunction(wanted, 0)
    if (n == 1) {
        show(chosen[1])
        exit 0
    }
    for (i = 1; i <= n; i++) names = names (i == 1 ? "" : "\n") calledSo[i]
    if (n) offer("several functions are called so:", names)
    at = match(wanted, / [^ ]+$/)
    of = at ? sectionOf(trim(substr(wanted, 1, at))) : ""
    last = tolower(substr(wanted, at + 1))
    if (of ~ /\n/) offer("no section \"" wanted "\", and several begin so:", of)
    if (of == "") {
        for (i = 1; i <= sections; i++) of = of (i == 1 ? "" : "\n") title[i]
        offer("no row " wanted "; a row is a section and a place, as \"Layout l3.1\". The sections:", of)
    }
    if (byPlace(of, last)) exit 0
    near(of, last)
    exit 1
}
