# Shared by the commands that list (key, key-pages, list), which set, beside me and usage: program (its name), unit (what progress counts),
# unit_lines (how many lines one takes), every (after how many of them progress is shown) and most_threshold (the greatest that the program can
# be asked for). They then call list_sheet with their words.
. "$root/scripts/common.sh"

# option NAME VALUE: takes an option. A command with options has its own.
option() {
    wrong "there is no option --$1"
}

# asked: the bytes that the program is given before the sheet, for printf. A command with options has its own.
asked() {
    bytes "$threshold" "$bound"
}

# bytes NUMBER..: each number as a byte, for printf.
bytes() {
    for number in "$@"; do
        printf '\\%03o' "$number"
    done
}

# number NAME TEXT MOST: the number that the text says, if it is one of 0 to MOST.
number() {
    case $2 in
    '' | *[!0-9]*) wrong "the $1 is no number: '$2'" ;;
    esac
    number=$(printf '%s' "$2" | sed 's/^0*\(.\)/\1/')
    if [ ${#number} -gt ${#3} ] || [ "$number" -gt "$3" ]; then
        wrong "the $1 is above $3: $2"
    fi
}

# one_option NAME VALUE: takes an option that was not given before.
one_option() {
    case $given in
    *" $1 "*) wrong "--$1 is given twice" ;;
    esac
    given="$given$1 "
    option "$1" "$2"
}

# words WORD..: takes the options, --NAME VALUE or --NAME=VALUE, which may stand anywhere before a word --; then threshold, bound and file.
words() {
    given=' '
    left=$#
    while [ $left -gt 0 ]; do
        word=$1
        shift
        left=$((left - 1))
        case $word in
        --) break ;;
        --*=*)
            word=${word#--}
            one_option "${word%%=*}" "${word#*=}"
            ;;
        --*)
            [ $left -gt 0 ] || wrong "$word has no value"
            one_option "${word#--}" "$1"
            shift
            left=$((left - 1))
            ;;
        *) set -- "$@" "$word" ;;
        esac
    done
    while [ $left -gt 0 ]; do
        set -- "$@" "$1"
        shift
        left=$((left - 1))
    done
    request "$@"
}

# request THRESHOLD BOUND [FILE]: looks at both numbers; standard input is the sheet from here on.
request() {
    [ $# -eq 2 ] || [ $# -eq 3 ] || wrong "a threshold, a bound and a sheet are needed"
    number threshold "$1" "$most_threshold"
    threshold=$number
    number bound "$2" 255
    bound=$number
    if [ $# -eq 3 ]; then
        read_from "$3"
    elif [ -t 0 ]; then
        wrong "name a file with the sheet, or send it through a pipe"
    fi
}

# list_sheet WORD..: the command.
list_sheet() {
    words "$@"
    program=$(built "$program" </dev/null) || exit 3
    read_whole "$(asked)"

    # Progress goes to standard error where a terminal reads it and the list goes elsewhere.
    progress=0
    [ -t 2 ] && [ ! -t 1 ] && progress=1

    # A list is whole if its last line that is not blank is `end`, and its last unit ends after that. The status is 100 and the number of a
    # refusal, 100 where the list is not whole; awk's own failures are below 100, a signal is above 128.
    exec 3>&1
    said=$({ "$program" 2>&4 | awk -v progress=$progress -v unit="$unit" -v unit_lines="$unit_lines" -v every=$((every * unit_lines)) '
        { print }
        NF { last = $0; at = NR }
        $1 == "refused" { number = $2 }
        progress && NR % every == 0 { printf "\r%d %s", NR / unit_lines, unit >"/dev/stderr"; fflush("/dev/stderr") }
        END {
            if (progress && NR >= every) printf "\r               \r" >"/dev/stderr"
            exit last ~ /^end *$/ && NR - at < unit_lines && NR % unit_lines == 0 ? 0 : 100 + number
        }' >&3; } 4>&1)
    status=$?
    case $status in
    10[1-9] | 11[0-9] | 12[0-8]) ended 0 "the list" ;;
    100) ended 0 "the list"; failed "the list is not whole: the program ended early" ;;
    *) ended $status "the list"; exit 0 ;;
    esac
    refused $((status - 100))
    [ $status -ne 102 ] || echo "$me: if this is a fleet written as text, ./text-to-sheet makes its sheet" >&2
    exit 1
}
