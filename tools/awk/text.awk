# Says what is wrong with the line `place` of a table's text, which does not fit, is missing or is left over (15 Text): what
# should stand there, and what does. The first line's counts say what each other line should have.
#
# Assumes: LC_ALL=C. The text has no zero byte, since not every awk can read one. One byte more stands behind it: so the last
# record is what no newline closes, with that byte at its end, and there is always a record `place`. Where it is not the first,
# the first line fits.

function numbers(n) { return n == 1 ? "1 number" : n " numbers" }
function lines(n) { return n == 1 ? "1 line" : sprintf("%.0f lines", n) } # past 32 bits too

# No byte of a text may reach a terminal that is not a letter, a digit or a mark.
function shown(word) {
    cut = substr(word, 1, 20)
    gsub(/[^!-~]/, "?", cut)
    return length(word) > 20 ? cut ".." : cut
}

# What line `place` should have, and in `width` how many numbers; none where it is left over, in `over`.
function wanted(    rows_end, records_end, k, at) {
    width = 5
    if (place == 1) return "this line should have the five counts: layers rows columns records list-entries"
    rows_end = 1 + count[1] * count[2]
    records_end = rows_end + count[4]
    all = records_end + count[5]
    if (place > all) {
        over = 1
        return "this line is left over"
    }
    if (place <= rows_end) {
        k = place - 2
        width = count[3]
        at = "layer " int(k / count[2]) ", row " k % count[2]
        if (width == 0) return "this line should be empty, since line 1 asks for 0 columns: " at
        return "this line should have " numbers(width) ", one for each column: " at
    }
    width = 4
    if (place <= records_end) return "this line should have four numbers, kind a b c: record " place - rows_end - 1
    width = 1
    return "this line should have one number: list entry " place - records_end - 1
}

# Why a line does not fit; nothing where it does. A space at an end, a tab and a carriage return are hard to see, so they are
# told before a word.
function fault(line,    n, word, i, value) {
    if (index(line, "\357\273\277") == 1) return "it begins with a byte order mark, which the editor put there"
    if (line ~ /\r$/) return "it ends in a carriage return (tr -d '\\r' takes them out)"
    if (line ~ /\t/) return "it has a tab, and only spaces may part numbers"
    if (line ~ /^ /) return "it begins with a space"
    if (line ~ / $/) return "it ends with a space"
    n = line == "" ? 0 : split(line, word, / +/)
    for (i = 1; i <= n; i++) {
        if (word[i] !~ /^[0-9]+$/) return "\"" shown(word[i]) "\" is no number"
        value = word[i]
        sub(/^0+/, "", value)
        if (length(value) > 5 || value + 0 > 65535) return shown(value) " is above 65535"
    }
    if (n == width) return ""
    return n == 0 ? "it is empty" : "it has " numbers(n)
}

NR == 1 && place > 1 { split($0, count, / +/); for (i = 1; i <= 5; i++) count[i] += 0 }
NR == place { line = $0 }
NR > place { closed = 1; exit }

END {
    should = wanted()
    if (!closed) line = substr(line, 1, length(line) - 1)
    if (over) why = "the counts on line 1 ask for " lines(all)
    else if (!closed && line == "") {
        why = "it is missing: the text " (place == 1 ? "is empty" : "ends before it, and line 1 asks for " lines(all))
    } else {
        why = fault(line)
        if (!closed) why = why (why == "" ? "" : ", and ") "it is not closed by a newline"
    }
    print should "; " why
}
