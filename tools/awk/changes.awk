# Says how each key changes from one table to another: a line a key, what it was and what it becomes, in words. Two actions have
# the same words only where their whole trees are the same: brackets stand around what has commas, and a list of none is said to
# be one. Where a key that is to change has the same words in both, nothing is guessed: exit status 3.
#
# Assumes: the two files are texts of accepted tables, the old one first; so a tree ends, and has few actions. `cells` has the
# cells that differ: layer, row and column of each, two hex digits each.

# not every awk takes digits behind a zero for decimal ones
function number(word) {
    sub(/^0+/, "", word)
    return word + 0
}

function byte(digits) {
    return 16 * (index("0123456789abcdef", substr(digits, 1, 1)) - 1) + index("0123456789abcdef", substr(digits, 2, 1)) - 1
}

# the list entries from `from` to `past`, as codes
function codes(table, from, past,    i, said) {
    for (i = from; i < past; i++) said = said sprintf(" %02X", entry[table, i])
    return said
}

# the same, as actions
function actions(table, from, past,    i, said) {
    for (i = from; i < past; i++) said = said (i > from ? ", " : "") inner(table, entry[table, i])
    return said
}

# an action inside others: the one kind with commas of its own is in brackets
function inner(table, record) {
    return kind[table, record] == 7 ? "(" action(table, record) ")" : action(table, record)
}

# what a hold-tap does: of a key the code alone
function done(table, record) {
    return kind[table, record] == 2 ? sprintf("%02X", a[table, record]) : action(table, record)
}

function action(table, record,    k, first, past) {
    k = kind[table, record]
    first = a[table, record]
    past = first + b[table, record]
    if (k == 0) return "nothing"
    if (k == 1) return "transparent"
    if (k == 2) return sprintf("key %02X", first)
    if (k == 3) return first == past ? "no keys" : "keys" codes(table, first, past)
    if (k == 4) return first == past ? "no actions" : "actions (" actions(table, first, past) ")"
    if (k == 5) return "layer " first
    if (k == 6) return "default layer " first
    return "hold-tap " first " ms, hold " done(table, b[table, record]) ", tap " done(table, c[table, record])
}

function change(layer, row, column,    line, old, new) {
    line = layer * rows + row
    if (!((1, line, column) in cell) || !((2, line, column) in cell)) exit 3
    old = action(1, cell[1, line, column])
    new = action(2, cell[2, line, column])
    if (old == new) exit 3
    print "layer " layer " row " row " column " column ": " old " becomes " new
}

FNR == 1 {
    table++
    rows = number($2)
    rows_end = 1 + number($1) * rows
    records_end = rows_end + number($4)
    next
}

FNR <= rows_end {
    for (i = 1; i <= NF; i++) cell[table, FNR - 2, i - 1] = number($i)
    next
}

FNR <= records_end {
    record = FNR - rows_end - 1
    kind[table, record] = number($1)
    a[table, record] = number($2)
    b[table, record] = number($3)
    c[table, record] = number($4)
    next
}

{ entry[table, FNR - records_end - 1] = number($1) }

END {
    if (cells == "" || length(cells) % 6 || cells !~ /^[0-9a-f]+$/) exit 3
    for (i = 1; i < length(cells); i += 6)
        change(byte(substr(cells, i, 2)), byte(substr(cells, i + 2, 2)), byte(substr(cells, i + 4, 2)))
}
