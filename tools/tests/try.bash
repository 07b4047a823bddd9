# What the scripts of this folder share, each of which sources it: a command is tried, and its exit status, standard output
# and standard error are held to what they should be. The first that is not as it should be ends the script.
#
# Assumes: bash, and coreutils' env; the scripts stand in tools/tests.
set -euo pipefail

# A caller may have signals ignored, as nohup does and a job in the background; a shell cannot undo that.
if [[ -z ${signals_as_usual-} ]]; then
    signals_as_usual=1 exec env --default-signal=HUP,INT,PIPE,TERM "$0" "$@"
fi

root=$(dirname "$(dirname "$(dirname "$(readlink -f -- "${BASH_SOURCE[0]}")")")")
work=$(mktemp -d)
trap 'rm -rf "$work"' EXIT
trap 'echo "${0##*/}: line $LINENO: a command of the test itself failed" >&2' ERR
tried=0
left_out= # what could not be tried here, for the closing line

# wrong WHAT: the last command that was tried is not as it should be.
wrong() {
    {
        echo "${0##*/}: $name: $1"
        echo "standard output:"
        cat -v "$work/out"
        echo "standard error:"
        cat -v "$work/err"
    } >&2
    exit 1
}

# holds FILE TEXT: the file has this text, with a newline behind it; or nothing, where the text is empty.
holds() {
    cmp -s "$1" <(printf '%s' "${2:+$2$'\n'}")
}

# try NAME STATUS OUT ERR COMMAND..: standard input is the caller's.
try() {
    name=$1
    local wanted=$2 out=$3 err=$4 status=0
    shift 4
    "$@" >"$work/out" 2>"$work/err" || status=$?
    tried=$((tried + 1))
    [[ $status == "$wanted" ]] || wrong "exit status $status, and not $wanted"
    holds "$work/out" "$out" || wrong "standard output should be: $out"
    holds "$work/err" "$err" || wrong "standard error should be: $err"
}

# also NAME COMMAND..: one thing more that must be so.
also() {
    name=$1
    shift
    tried=$((tried + 1))
    "$@" || wrong "it is not so: $*"
}

# image LAYERS ROWS COLUMNS RECORDS ENTRIES NUMBERS..: the bytes of a table image, legal or not, of the numbers of its text.
image() {
    local word octal bytes='' records_at=$((16 + 2 * $1 * $2 * $3))
    for word in 1 "${@:1:5}" "$records_at" $((records_at + 8 * $4)) "${@:6}"; do
        printf -v octal '\\%03o\\%03o' $((word % 256)) $((word / 256))
        bytes+=$octal
    done
    # shellcheck disable=SC2059 # all of it is escapes
    printf "$bytes"
}

# The closing line of a script.
closing() {
    echo "${0##*/}: $tried tried, each as it should be${left_out:+ (left out: $left_out)}"
}
