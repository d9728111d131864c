# What the commands at the root share. Each reads this in after it has set `top`, the repository's folder, and
# `called`, its own name, and then sets `help`, which --help prints, and `usage` where it takes more than a file.
# Whatever fails here is one line on standard error and status 2.
# shellcheck shell=sh
# shellcheck disable=SC2034,SC2154

newline='
'
usage='[FILE]'

# Where standard error is closed, the next file that is opened must not take its place.
true 3>&2 || exec 2>/dev/null

fail() {
    printf '%s: %s\n' "$called" "$1" >&2
    exit 2
}

wrong_usage() {
    echo "usage: $called $usage | $called --help" >&2
    exit 2
}

# A file's name as it can stand in one line.
shown() {
    printf '%s' "$1" | LC_ALL=C tr '[:cntrl:]' '[?*]'
}

# open_input FILE: from here on standard input is that file. It is opened only once, since it may be a pipe.
open_input() {
    if ! { command exec <"$1"; } 2>/dev/null; then
        [ -e "$1" ] || fail "cannot open $(shown "$1"): there is no such file"
        fail "cannot open $(shown "$1")"
    fi
}

# check_streams NAME: can standard input, which is called NAME, be read, and standard output be written? A closed
# standard input counts as an empty one.
check_streams() {
    { true 3<&0; } 2>/dev/null || exec </dev/null
    [ ! -d /dev/stdin ] || fail "cannot read $(shown "$1"): it is a folder"
    { true 3>&1; } 2>/dev/null || fail "cannot write to standard output: it is closed"
}

# take_options ARGUMENT..: those of the command. All commands have the same options; from here on `options` is how many
# of the arguments they are.
take_options() {
    options=0
    case ${1-} in
    --help)
        [ $# -eq 1 ] || wrong_usage
        print_text "$help"
        exit 0
        ;;
    --) options=1 ;;
    -*) wrong_usage ;;
    esac
}

# take_file [FILE]: from here on standard input is what is to be read.
take_file() {
    [ $# -le 1 ] || wrong_usage
    [ $# -eq 0 ] || open_input "$1"
    check_streams "${1-standard input}"
}

# take_arguments ARGUMENT..: those of a command that takes a file and nothing else.
take_arguments() {
    take_options "$@"
    shift "$options"
    take_file "$@"
}

# keep_text NAME [ARGUMENT..]: runs the program crates/NAME and keeps what it prints in `text`, and in `last` its last
# line, which is empty where the text does not end with a newline. A mark behind the text saves the newlines at its
# end. The shell has another standard error meanwhile: of a program that a signal ended it would speak too.
keep_text() {
    text=$(
        exec 3>&2 2>/dev/null
        (exec "$top/tools/run-program" "$@" 2>&3 3>&-)
        status=$?
        printf .
        exit "$status"
    )
    status=$?
    text=${text%.} last=
    case $text in
    *"$newline")
        last=${text%"$newline"}
        last=${last##*"$newline"}
        ;;
    esac
    case $status in
    0) ;;
    2 | 126 | 127) exit 2 ;; # it could not be started, and the reason is told already
    *) fail "the program ended with status $status" ;;
    esac
}

# print_text TEXT: a reader that has gone away is a failed write like any other.
print_text() {
    trap '' PIPE
    printf '%s' "$1" 2>/dev/null || fail "cannot write to standard output"
}

# pass_output NAME: runs the program crates/NAME, whose standard output may be long, or no text, and so goes straight
# to the command's own. The command ends as the program says on standard error: nothing where all is well, and
# otherwise one line. That is kept in `said`, by way of descriptor 4, with a mark behind it as above. Descriptor 3 is
# the command's standard output, and 5 its standard error, where run-program tells what keeps the program from
# running.
pass_output() {
    {
        said=$(
            exec 4>&1 >&3 3>&- 5>&2 2>/dev/null
            (exec "$top/tools/run-program" --said "$1" 2>&5 5>&-)
            status=$?
            printf . >&4
            exit "$status"
        )
        status=$?
    } 3>&1
    said=${said%.}
    case $status in
    0) ;;
    2 | 126 | 127)
        # It could not be started, and the reason is told already where run-program knew it.
        [ -z "$said" ] || fail "the program cannot be started"
        exit 2
        ;;
    *) fail "the program ended with status $status" ;;
    esac
    case $said in
    '') exit 0 ;;
    esac
    last=${said%"$newline"}
    case $last in
    "$said" | *"$newline"*) ;; # it is not one whole line
    "cannot read standard input" | "cannot write to standard output") fail "$last" ;;
    "refused "* | "line "*": "*)
        printf '%s\n' "$last" >&2
        exit 1
        ;;
    esac
    fail "the program gave no outcome"
}
