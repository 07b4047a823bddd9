# What tools/panel, tools/table and tools/compare-tables share, sourced by each: messages, files, and what a refused table's number
# and place are in words. Those are the words of the first table in docs/REFUSALS.md.
#
# Assumes: `root` is the repository's folder, `tool` the command's name, `trouble` its exit status where it fails; head has -c.
# The words of a refusal are about table.img in the temporary folder.
# shellcheck shell=sh disable=SC2154 # `root`, `tool` and `trouble` are the sourcing file's

# The largest table has so many bytes. The programs read one more and no other: by that they refuse a longer one.
largest=6160

say() {
    printf '%s\n' "$1" >&2 || : # a closed standard error changes no exit status
}

fail() {
    say "$tool: $1"
    exit "$trouble"
}

readable() {
    [ -e "$1" ] || fail "$1: there is no such file"
    [ ! -d "$1" ] || fail "$1 is a folder"
    [ -r "$1" ] || fail "$1 may not be read"
}

# Makes a temporary folder. It goes at every end, and so does the file that `partial` names, if there is one.
make_folder() {
    partial=
    folder=$(mktemp -d 2>/dev/null) || fail "no temporary folder can be made${TMPDIR:+ in $TMPDIR}"
    case $folder in /*) ;; *) folder=./$folder ;; esac # else a = in it is an assignment to awk, and cd may look it up elsewhere
    trap 'rm -rf "$folder" ${partial:+"$partial"}' EXIT
    trap 'exit 129' HUP
    trap 'exit 130' INT
    trap 'exit 143' TERM
    trap : PIPE # where standard error is closed, so that the folder goes all the same
}

# Copies the file $1 into the temporary folder, as $2: $3 bytes of it, and one more where it has more.
copy() {
    head -c $(($3 + 1)) 2>/dev/null <"$1" >"$folder/$2" || fail "$1 cannot be read, or there is no room for a copy"
}

# Hands on what is printed. A reader that closes the output has read enough, and a signal ends cat; all else is a fault.
hand_on() {
    cat 2>/dev/null || [ $? -gt 128 ] || fail "the output cannot be written"
}

# The rows of the first table in docs/REFUSALS.md: number, name, place, cause, what to do.
refusals() {
    sed -n '/^| no\. /,/^$/ { /^|/p; }' "$root/docs/REFUSALS.md"
}

# The refusal $1: its number and name.
named() {
    refusals | awk -F ' *[|] *' -v number="$1" '$2 == number { name = $3 } END { print number " " name }'
}

# Its cause. Of two rows with one number each is for a kind of record, $2.
cause() {
    refusals | awk -F ' *[|] *' -v number="$1" -v kind="$2" '
        $2 == number && ($4 !~ /kind/ || $4 ~ "kind " kind "$") { print $5 }'
}

# The 16-bit words of the table from byte $1 on, in $2 bytes.
words() {
    od -An -v -tu1 -j "$1" -N "$2" "$folder/table.img" |
        awk '{ for (i = 1; i < NF; i += 2) { printf "%s%d", sep, $i + 256 * $(i + 1); sep = " " } }'
}

# The kind of record $2, where refusal $1 is one of a record. Its table has a legal header: that is looked at first.
kind() {
    case $1 in [5-9]) words $(($(words 12 2) + 8 * $2)) 2 ;; esac
}

# The cell $1 by layer, row and column, of a table with $2 rows and $3 columns.
cell() {
    echo "layer $(($1 / ($2 * $3))), row $(($1 / $3 % $2)), column $(($1 % $3))"
}

# What the place $2 of refusal $1 is, or what a refusal without a place is about.
where() {
    size=$(($(wc -c <"$folder/table.img")))
    [ "$size" -le "$largest" ] || size="more than $largest"
    case $1 in
    1) [ "$size" = 1 ] && echo "1 byte" || echo "$size bytes" ;;
    2) echo "header $(words 0 16)" ;;
    3) echo "$size bytes and not $(($(words 14 2) + 2 * $(words 10 2)))" ;;
    4) cell "$2" "$(words 4 2)" "$(words 6 2)" ;;
    *) echo "record $2" ;;
    esac
}
