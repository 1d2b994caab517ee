# Shared by the commands at the root, which set me (the command's name) and usage first: wrong usage, building and running a program, and what
# the numbers of the refusals mean (document 01, "When the desk says no", and document 02).

case ${1-} in
-h | --help)
    echo "$usage"
    exit 0
    ;;
esac
(: 3>&1) 2>/dev/null || { echo "$me: there is no standard output" >&2; exit 3; }

# wrong WHAT: ends with what is wrong in the call.
wrong() {
    echo "$me: $1" >&2
    echo "$usage" >&2
    exit 2
}

# failed WHAT: ends with what failed.
failed() {
    echo "$me: $1" >&2
    exit 3
}

# read_from FILE: standard input is the file from here on.
read_from() {
    [ -e "$1" ] || wrong "there is no file '$1'"
    [ ! -d "$1" ] || wrong "'$1' is a directory"
    command exec <"$1" || failed "'$1' could not be opened"
}

# read_whole [FORMAT]: from here on standard input is a copy of what it was, behind what printf makes of the format. Reading fails here or not
# at all: no program begins on an input that broke off. No program reads more bytes than are copied.
read_whole() {
    (: 3<&0) 2>/dev/null || failed "there is no standard input"
    copy=$(mktemp) || failed "there is no place for a copy of the input"
    trap 'rm -f "$copy"' EXIT
    trap 'exit 3' HUP INT TERM
    { printf "${1-}" && head -c 65537; } >"$copy" || failed "the input could not be read"
    command exec <"$copy" || failed "the copy of the input could not be read"
    rm -f "$copy"
    trap - EXIT HUP INT TERM
}

# built NAME: the path of the program, proved and built first if it is not there or older than a source file.
built() {
    program=$root/target/bin/$1
    if [ ! -x "$program" ] || newer_source "$program"; then
        build "$1" || exit 3
    fi
    printf '%s\n' "$program"
}

# newer_source FILE: whether a crate's source has changed since the file was made. What rt makes stands in the crates' folders out/.
newer_source() {
    [ -n "$(find "$root/crates.txt" "$root/crates" \( -name must-fail -o -name out \) -prune -o -type f -newer "$1" -print | head -n 1)" ]
}

# build NAME: proves and builds the program. What rt says goes to target/NAME.log, and to standard error where a terminal reads it.
build() {
    command -v rt >/dev/null 2>&1 || { echo "$me: $1 is not built from these sources, and there is no Rattle toolchain (rt) to build it" >&2; return 3; }
    echo "$me: proving and building $1; from nothing that takes some five minutes" >&2
    mkdir -p "$root/target" || return 3
    log=$root/target/$1.log
    begun=$(date +%s)
    # one at a time: both sides of a pipe may have to be built
    { flock "$root/target/building" "$root/scripts/build" "$1" 2>&1 || echo "build failed"; } | if [ -t 2 ]; then tee "$log" >&2; else cat >"$log"; fi
    if [ "$(tail -n 1 "$log")" = "build failed" ]; then
        echo "$me: the build failed, see target/$1.log" >&2
        return 3
    fi
    echo "$me: built in $(($(date +%s) - begun)) s" >&2
}

# convert NAME: runs the program from standard input to standard output. Ends here if it says nothing, or that reading or writing failed; else
# what it says is put in said.
convert() {
    program=$(built "$1" </dev/null) || exit 3
    read_whole
    exec 3>&1
    # Where the reader went away, cat is ended by the signal and its status says so; a program only says that it could not write.
    said=$({ { "$program" 2>&4 || echo "output not written" >&4; } | cat >&3 2>/dev/null; } 4>&1)
    ended $? "the output"
    [ -n "$said" ] || exit 0
}

# ended STATUS OUTPUT: ends here if the program said that reading or writing failed (it has no status of its own), or if the last program of its
# pipe did not end well.
ended() {
    [ "$1" -ne 141 ] || exit 3 # whoever read the output had enough: the program itself then says that it could not write
    case $said in
    *"input not read") failed "the input could not be read" ;;
    *"output not written") failed "$2 is not whole: it could not be written" ;;
    esac
    [ "$1" -eq 0 ] || failed "$2 is not whole: it could not be written"
}

# refused NUMBER [WHERE]: says the cause.
refused() {
    echo "$me: ${2-}refused $1: $(meaning "$1") (docs/REFUSALS.md)" >&2
}

# meaning NUMBER: the cause of a refusal.
meaning() {
    case $1 in
    1) echo "the sheet has no bytes" ;;
    2) echo "a record's first byte has a bit above bit 1 set" ;;
    3) echo "the first record lacks its depth or its label" ;;
    4) echo "the sheet ends before a record's fields do" ;;
    5) echo "a depth is wrong: the first is 0, each later one at most one more than the one before, none above 15" ;;
    6) echo "a label is not 1 to 999" ;;
    7) echo "a label's family (hundreds digit) may not stand there" ;;
    8) echo "a record has a field that should be absent" ;;
    9) echo "too much: tree 65, node 257 of a tree, or node 4,097" ;;
    10) echo "the pairs are no fleet" ;;
    11) echo "the threshold is not 1 to 64" ;;
    12) echo "the size bound is not 1 to 16" ;;
    13) echo "the pattern is empty or over the bound" ;;
    14) echo "the pattern's pairs are no tree" ;;
    15) echo "the pattern is not in its form" ;;
    16) echo "the vehicle number is 0 or above the fleet's" ;;
    17) echo "the output is too short" ;;
    18) echo "the output is shorter than the pages of the list" ;;
    19) echo "the profile is not 0 (full), 1 (closed) or 2 (maximal)" ;;
    *) echo "no cause has this number" ;;
    esac
}
