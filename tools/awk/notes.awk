# Puts behind each report of `panel` what the call did, in words: the event acted on, the decisions, and how many states were
# dropped. They are what `replay` told of the same call. Where the two do not fit together nothing is guessed: exit status 3.
#
# Assumes: a line is an answer of `panel`, a tab, and the answer of `replay` to the same line; one of them is empty where the
# other program gave more. What `replay` tells of a call is parted by " | ", a label before each part, and `-` where there is
# none (docs/REPLAY.md).

# what `replay` told behind a label
function told(label,    part, n, i) {
    n = split($2, part, / [|] /)
    for (i = 1; i <= n; i++)
        if (index(part[i], label " ") == 1) return substr(part[i], length(label) + 2)
    exit 3
}

function dropped(n) {
    if (n !~ /^[0-9]+$/) exit 3
    if (n + 0 == 0) return "-"
    return n + 0 == 1 ? "1 state dropped" : n " states dropped"
}

# a note with one part more, `words` before it; the part may be none
function with(note, words, part) {
    if (part == "-") return note
    return note (note == "" ? "  " : "; ") words part
}

BEGIN { FS = "\t" }

# no call: a line that cannot be read, or a call that is refused
$1 == $2 && /^([?]|refused )/ {
    print $1
    next
}

length($1) != 16 || $1 !~ /^[0-9a-f]+$/ { exit 3 }

{
    note = with("", "acted on ", told("acted"))
    note = with(note, "", told("decided"))
    note = with(note, "", dropped(told("dropped")))
    print $1 note
}
