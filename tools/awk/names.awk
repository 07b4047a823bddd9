# What files define, and on which line; and what a piece of `code` in docs/TRACE.md names. tools/trace has the notation.
# `citations` hands each name to `named(code, file, name, line)` of the program that uses this file: `file` is empty
# where there is no such file, `line` is 0 where it has no such name, and `name` is empty where a file alone is named.
#
# Assumes: the working directory is the repository's root, and `home` is the crate of paths that name none.

# the first word of a text: what stands before a character that no name has
function head(text) {
    sub(/[^A-Za-z0-9_].*/, "", text)
    return text
}

function define(path, name, line) {
    if (!((path, name) in defined)) defined[path, name] = line
}

# a definition: NAME : TYPE, several names before one colon, or a record or data by its name
function antt(path, line, number,    w, n, i, j) {
    sub(/--.*/, "", line)
    n = split(line, w, /[ \t]+/)
    for (i = 1; i <= n && (w[i] == "" || w[i] ~ /^(pub|abbrev|unfoldable)$/); i++) {}
    if (w[i] == "record" || w[i] == "data") {
        define(path, w[i + 1], number)
        return
    }
    for (j = i; j <= n && w[j] != ":"; j++)
        if (w[j] == "let" || w[j] ~ /[(=]/) return
    if (j <= n)
        while (--j >= i) define(path, w[j], number)
}

# a type, what it has, or a function; answers the type whose braces are open
function rt(path, line, number, owner,    name) {
    sub(/\/\/.*/, "", line)
    name = line
    if (line ~ /^(pub |pub\(crate\) )?(struct|enum|impl) /) {
        sub(/^.*(struct|enum|impl) /, "", name)
        name = head(name)
        if (line !~ /^impl /) define(path, name, number)
        return line ~ /[{]$/ ? name : owner
    }
    if (line ~ /^}/) return ""
    if (line ~ /(^| )(fn|const) /) sub(/^.*(fn|const) /, "", name)
    else if (owner == "" || line !~ /^    (pub )?[A-Za-z]/) return owner
    else sub(/^ *(pub )?/, "", name)
    name = (owner == "" ? "" : owner "::") head(name)
    define(path, name, number)
    if (line ~ /^ *pub (extern "C" )?fn /) public[path, name] = 1
    return owner
}

function rs(path, line, number) {
    sub(/\/\/.*/, "", line)
    if (line ~ /(^| )(fn|struct|enum|const) /) {
        sub(/^.*(fn|struct|enum|const) /, "", line)
        define(path, head(line), number)
    }
}

# a text, in which words are found wherever its lines are broken; `began` is where each line of it begins
function prose(path, line, number) {
    gsub(/[ \t]+/, " ", line)
    sub(/^ /, "", line)
    began[path, number] = length(words[path]) + 1
    words[path] = words[path] line " "
    lines[path] = number
}

function load(path,    line, kind, owner, number) {
    kind = path
    sub(/.*\./, "", kind)
    coded[path] = kind ~ /^(antt|rt|rs)$/
    while ((getline line < path) > 0) {
        number++
        if (kind == "antt") antt(path, line, number)
        else if (kind == "rt") owner = rt(path, line, number, owner)
        else if (kind == "rs") rs(path, line, number)
        else prose(path, line, number)
    }
    close(path)
}

# the file that a path names, or nothing; what it defines is read once
function fileOf(path,    full) {
    if (path !~ /^[A-Za-z0-9_.+\/-]+$/) return ""
    full = path ~ /^(specs|src|proofs|must-fail)\// ? home "/" path : path
    if ((full in known) == 0) {
        known[full] = full
        if (system("test -f crates/" full) == 0) known[full] = "crates/" full
        else if (system("test -f " full) != 0) known[full] = ""
        if (known[full] != "") load(known[full])
    }
    return known[full]
}

# the line on which a file has a name, or words; 0 where it has not
function lineOf(path, name,    at, number) {
    if (coded[path]) return (path, name) in defined ? defined[path, name] : 0
    at = index(words[path], name)
    for (number = lines[path]; at && began[path, number] > at; number--) {}
    return at ? number : 0
}

# FILE, or FILE: names
function lookUp(code,    at, path, file, names, n, i) {
    at = index(code, ": ")
    path = at ? substr(code, 1, at - 1) : code
    file = fileOf(path)
    n = file != "" && at ? split(substr(code, at + 2), names, /, /) : 0
    for (i = 1; i <= n; i++) named(code, file, names[i], lineOf(file, names[i]))
    if (!n) named(code, file, "", file != "")
}

# names out of a list that is known: kinds of the oracle, cases of the bench
function choose(code, what, file, list, set,    names, n, i) {
    n = split(list, names, /, /)
    for (i = 1; i <= n; i++) named(code, file, what names[i], names[i] in set ? set[names[i]] : 0)
}

# whether the code was one to look up
function cite(code) {
    if (code ~ /^crates\/[a-z_]+$/) return 0
    if (code ~ /^oracle: /) choose(code, "kind ", "oracle/compare", substr(code, 9), kinds)
    else if (code ~ /^case /) choose(code, "case ", BENCH, substr(code, 6), cases)
    else if (code ~ /\/|: /) lookUp(code)
    else return 0
    return 1
}

# how much of a text was looked up; -1 where a piece of code in it is not closed
function citations(line,    spans, n, i, cited) {
    n = split(line, spans, "`")
    for (i = 2; i < n; i += 2) cited += cite(spans[i])
    return n && n % 2 == 0 ? -1 : cited + 0
}

# the crate of paths that name none, from a line under a heading
function homeIn(line) {
    sub(/^[^`]*`crates\//, "", line)
    return head(line)
}

BEGIN {
    BENCH = "crates/demands/specs/Bench.antt"
    while ((getline line < "oracle/compare") > 0) {
        number++
        if (line ~ /^kinds=\(/) {
            gsub(/^kinds=\(|\)$/, "", line)
            n = split(line, list, " ")
            for (i = 1; i <= n; i++) kinds[list[i]] = number
        }
    }
    close("oracle/compare")
    number = 0
    while ((getline line < BENCH) > 0) {
        number++
        if (line ~ /^cases =/) counting = 1
        if (counting && line ~ /given = /) cases[++count] = number
    }
    close(BENCH)
}
