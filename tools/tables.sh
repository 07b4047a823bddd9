# What tools/table and tools/compare-tables share, sourced by both behind common.sh: the proved programs on a file of the
# temporary folder, and what they refuse in words.
#
# Assumes: what common.sh assumes; `refused` is the exit status where a table is refused. A refusal is `number` at `at`; its words
# are about the text, or about table.img, in the temporary folder.
# shellcheck shell=sh disable=SC2154 # `root`, `trouble` and `refused` are the sourcing file's, `folder` and others common.sh's

# The longest text has so many bytes; table_write reads one more.
longest=1048576

# Sees that the text in the temporary folder, a copy of the file $1, is not too long.
fits() {
    [ $(($(wc -c <"$folder/text"))) -le "$longest" ] ||
        fail "$1 has more than $longest bytes, the most that a text may have here"
}

ended_early() {
    fail "the program did not run to its end"
}

# Has the program $1 answer $2 in the temporary folder, in the file `made` there. The answer goes through cat, since a program
# cannot tell of a write that failed.
answer() {
    ended=$({ { code=0; "$root/tools/run" "$1" <"$folder/$2" 3>&- || code=$?; echo "$code" >&3; } |
        cat 2>/dev/null >"$folder/made"; } 3>&1) || fail "there is no room for what is made"
    [ "$ended" -eq 0 ] || [ "$ended" -gt 128 ] || exit "$trouble" # tools/run has said why
    [ "$ended" -eq 0 ] || ended_early
}

# Has the program $1, table_write or table_print, make what it makes of $2. Where it refuses, the status is 3.
make() {
    answer "$1" "$2"
    # an image begins with the byte 1, a text with a digit, and what else a program says with a letter
    case $(head -c 10 "$folder/made" | tr '\000\001' '.1') in
    [0-9]*) return 0 ;;
    'refused '*) read -r _ number at <"$folder/made" && return 3 ;;
    esac
    ended_early
}

# A count $1, and what is counted: $2 where it is one, else $3.
counted() {
    [ "$1" -eq 1 ] && echo "1 $2" || echo "$1 $3"
}

# The size of a table with $1 layers, $2 rows and $3 columns.
size_of() {
    echo "$(counted "$1" layer layers), $(counted "$2" row rows), $(counted "$3" column columns)"
}

# The numbers of line $1 of a text whose lines fit.
numbers() {
    awk -v line="$1" 'NR == line { for (i = 1; i <= NF; i++) printf "%d ", $i; exit }' "$folder/text"
}

# Which of the five counts are illegal. Their limits stand in docs/REFUSALS.md, with the header's words.
illegal_counts() {
    sed -n '/^| word /,/^$/p' "$root/docs/REFUSALS.md" | awk -F ' *[|] *' -v counts="$*" '
        BEGIN { split(counts, count, " ") }
        $2 >= 2 && $2 <= 6 {
            rule = $4
            gsub(/,/, "", rule)
            split(rule, limit, " to ")
            n = count[$2 - 1] + 0
            if (n < limit[1] + 0 || n > limit[2] + 0) { printf "%s%s %d: %s are legal", sep, $3, n, $4; sep = "; " }
        }'
}

# 15 Text: why line `at` does not fit.
explain_line() {
    { tr '\000' '\001' <"$folder/text" && echo .; } | LC_ALL=C awk -v place="$at" -f "$root/tools/awk/text.awk"
}

# 4 Cell: cell `at`, of a table with $1 rows, $2 columns and $3 records, names record $4.
explain_cell() {
    there="there are $3 records (0 to $(($3 - 1)))"
    [ "$3" -ne 1 ] || there="there is 1 record (0)"
    echo "$(cell "$at" "$1" "$2") names record $4, and $there"
}

# What is refused of a text, and where.
explain_text() {
    if [ "$number" -eq 15 ]; then
        printf 'line %s: %s: %s\n' "$at" "$(named 15)" "$(explain_line)" # no echo: some take a text's \\ for their own
        return
    fi
    # shellcheck disable=SC2046 # each count is a word
    set -- $(numbers 1)
    case $number in
    2) echo "line 1: $(named 2): $(illegal_counts "$@")" ;;
    4)
        line=$((2 + at / $3))
        record=$(numbers "$line" | cut -d ' ' -f $((1 + at % $3)))
        echo "line $line: $(named 4): $(explain_cell "$2" "$3" "$4" "$record")"
        ;;
    *)
        line=$((2 + $1 * $2 + at))
        echo "line $line: $(named "$number"): record $at: $(cause "$number" "$(numbers "$line" | cut -d ' ' -f 1)")"
        ;;
    esac
}

# What is refused of an image, and where.
explain_image() {
    if [ "$number" -eq 4 ]; then
        echo "$(named 4): $(explain_cell "$(words 4 2)" "$(words 6 2)" "$(words 8 2)" "$(words $((16 + 2 * at)) 2)")"
    else
        echo "$(named "$number"): $(where "$number" "$at"): $(cause "$number" "$(kind "$number" "$at")")"
    fi
}

# Ends with what is refused of the file $1, in words.
refuse() {
    say "$1: $2" || :
    exit "$refused"
}

# Makes the image of the text in the temporary folder, a copy of the file $1.
make_image() {
    fits "$1"
    make table_write text || refuse "$1" "$(explain_text)"
}

# Makes the text of table.img, a copy of the file $1.
make_text() {
    make table_print table.img || refuse "$1" "$(explain_image)"
}
