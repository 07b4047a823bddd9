# Whether all that docs/TRACE.md names is there, with names.awk; and the must-fail edits, with edits.awk.

function say(text) {
    print FILENAME ":" FNR ": " text
    bad++
}

function named(code, file, name, line) {
    if (file == "") {
        sub(/: .*/, "", code)
        say("no file " code)
        return
    }
    files[file] = 1
    if (name == "") return
    found++
    isNamed[file, name] = 1
    if (!line) say(file " has no " name)
}

# every public function of a library stands in a row: a library is a crate with src/lib.rt
function everyPublic(    list, path, key, at) {
    list = "ls $(dirname crates/*/src/lib.rt | sed s,$,/*.rt,)"
    while ((list | getline path) > 0) {
        sub(/^crates\//, "", path)
        fileOf(path)
        libraries["crates/" path] = 1
    }
    close(list)
    for (key in public) {
        split(key, at, SUBSEP)
        if (!(at[1] in libraries)) continue
        functions++
        if (key in isNamed) continue
        print FILENAME ": no row names " at[1] ": " at[2]
        bad++
    }
}

/^#/ { home = "" }
/^Files without a crate are of `crates\/[a-z_]+`/ { home = homeIn($0) }
{
    cited = citations($0)
    if (cited < 0) say("a ` is not closed")
    isRow = /^\|/ && inTable && !/^\|[-|]+$/
    inTable = /^\|/
    if (isRow) {
        rows++
        gap = /\*\*gap\*\*/
        later = /\*\*not yet\*\*/
        gaps += gap
        laters += later
        if (!cited && !gap && !later) say("this row names nothing, and says no gap")
    }
}

END {
    everyPublic()
    edits = everyEdit()
    for (file in files) fileCount++
    if (!rows) {
        print FILENAME ": no rows"
        bad++
    }
    if (bad) {
        print "tools/trace: " bad " wrong"
        exit 1
    }
    printf "trace: %d rows, %d names in %d files, all there; ", rows, found, fileCount
    printf "all %d public functions; %d rows with a gap, %d not yet; ", functions, gaps, laters
    printf "%d edits, each of a kind\n", edits
}
