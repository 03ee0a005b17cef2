# The program `desk`, for bin/house where it is called as bin/desk.

desk_forms() {
    cat <<'TEXT'
desk takes the lines of a call in as they come, into the file `journal` of the current folder.

    bin/desk intake              puts each line of standard input into the journal, and writes `kept N` once no crash can
                                 lose it: N is how many lines the journal has then
    bin/desk show                writes the lines of the journal: bin/desk show | bin/house run
    bin/desk help                this page
    bin/desk version             the commit and the toolchain

Exit status, and what is written:
     0  done                                  `kept N` for each line of the input, or all lines of the journal
     1  the words are none of the above       nothing
     4  the input could not be read           `kept N` for each line that had ended
     5  the output could not be written       the front of what was due
     6  there was not enough memory           the front of what was due
     8  a line of the input has more than
        4,096 bytes                           `kept N` for each line before it
     9  the journal is damaged                nothing
    10  the disk failed                       the front of what was due; whether the next line is in the journal, `show`
                                              tells
    11  the journal is full                   `kept N` for each line that found room
    70  the program could not be built        nothing; only this script ends so
    75  another desk works in this folder     nothing; only this script ends so

docs/running-a-call.md, "Taking lines in as they come", leads through it.
TEXT
}

# Says what a status asks for.
explain_desk() {
    case $1 in
        0) ;;
        1) say "the words are none of the program's: bin/desk help lists them" ;;
        4) say "standard input could not be read; the lines that are told as kept are in the journal" ;;
        5) say "standard output could not be written; what is in the journal, bin/desk show tells" ;;
        6) say "there was not enough memory; the lines that are told as kept are in the journal" ;;
        8) say "the line behind those that are told as kept is longer than 4,096 bytes; it is not in the journal, and nothing behind it was taken" ;;
        9) say "the file journal is damaged, and nothing was done; docs/running-a-call.md says how it is looked at" ;;
        10) say "the disk failed; the lines that are told as kept are in the journal, and of the next one bin/desk show tells" ;;
        11) say "the journal is full: 1,048,576 lines, or 16,777,216 bytes in them" ;;
        *) say "the program ended with status $1" ;;
    esac
}

# One desk works in a folder at a time: the lock is on the folder itself, so that no other file appears, and ends with the
# program, which has it too.
take_folder() {
    command -v flock >/dev/null 2>&1 || give_up "the command \`flock\` is not on the path, which keeps two desks from one journal"
    exec 8<. || give_up "the current folder cannot be opened"
    flock -n -E 75 8
    case $? in
        0) ;;
        75)
            say "another desk works in this folder; its journal can be shown once that has ended"
            exit 75
            ;;
        *) give_up "the current folder cannot be locked" ;;
    esac
}

desk() {
    case ${1-} in
        help | --help | -h)
            desk_forms
            exit
            ;;
        --version | version)
            version
            exit
            ;;
    esac
    case $#:${1-} in
        1:intake | 1:show) ;;
        *)
            explain_desk 1
            exit 1
            ;;
    esac
    [ -n "$given" ] || is_current || build
    take_folder
    status=0
    if [ "$1" = show ]; then
        "$program" show </dev/null || status=$?
    elif [ ! -e /proc/self/fd/0 ]; then
        # A closed input is the program's to tell.
        "$program" intake <&- || status=$?
    else
        [ ! -t 0 ] || say "taking lines from the terminal; Ctrl-D ends them"
        exec 4<&0
        "$program" intake <&4 4<&- &
        child=$!
        wait "$child" || status=$?
        child=
    fi
    explain_desk "$status"
    exit "$status"
}
