# Whether each must-fail edit says of which kind it is, in its first line, and changes files that its kind allows: a
# wrong build the code or its contract; a false statement, or a wrong reply in the place of the right one, a definition.
# Behind such a file a proof may stand, which names a goal as the change has it named.

# the folder that an edit's first line allows; nothing where the line names no kind
function folderFor(line) {
    if (line ~ /^# wrong build: ./) return "src/"
    if (line ~ /^# (false statement|wrong reply): ./) return "specs/"
    return ""
}

# what is wrong with an edit; nothing where nothing is
function faultIn(edit,    line, folder, files) {
    getline line < edit
    folder = folderFor(line)
    if (folder == "") {
        close(edit)
        return "its first line begins with none of '# wrong build: ', '# false statement: ', '# wrong reply: '"
    }
    while ((getline line < edit) > 0) {
        if (line !~ /^file: /) continue
        sub(/^file: */, "", line)
        if (index(line, folder) == 1) {
            files++
            continue
        }
        if (files && line ~ /^proofs\//) continue
        close(edit)
        return "its file is " line ", and by its first line it would be in " folder
    }
    close(edit)
    return files ? "" : "it names no file"
}

# how many edits there are; what is wrong with them is shown, and counted in `bad`
function everyEdit(    list, edit, fault, count) {
    list = "ls crates/*/must-fail/*.edit 2>/dev/null"
    while ((list | getline edit) > 0) {
        count++
        fault = faultIn(edit)
        if (fault == "") continue
        print edit ": " fault
        bad++
    }
    close(list)
    return count + 0
}
