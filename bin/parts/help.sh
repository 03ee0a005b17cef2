# The answers to `help` and `version`, for bin/house.

forms() {
    cat <<'TEXT'
house reads a command file on standard input and writes its answer to standard output.

    bin/house run < FILE         runs the call and writes the report
    bin/house run CALL REGISTER < FILE
                                 the same of a call that a call file (TOML) and a register (CSV) open; FILE has the lines
                                 behind the opening
    bin/house feasible < FILE    says whether the call has a valid assignment
    bin/house pairs < FILE       writes the assignment, a line for each pair
    bin/house audit AUDIT < FILE writes the report as `run` does, and then the audit of the run into the file AUDIT
    bin/house slip NAME < FILE   runs the call and writes the slip of the applicant NAME, from which its chance can be
                                 checked without FILE
    bin/house reserve WITHDRAWALS < FILE
                                 runs the call and writes the report, who moves up for each applicant that withdraws, and
                                 who holds a seat then
    bin/house check FILE         says whether the chance that a slip prints is the right one
    bin/house replay FILE        runs the lines of an audit again, and says whether it is the audit of its lines
    bin/house migrate OLD NEW    does the same, and stores their audit of the second version as NEW
    bin/house join FILE FILE     writes the desk file that has the reviews of two desks
    bin/house help [WORD]        this page, or what a word means: one of the above, a reason, a kind of review lines
                                 that are set aside, a text such as `short`; `reasons`, `kinds` and `status` list them
    bin/house version            the commit and the toolchain

TEXT
    statuses
    cat <<'TEXT'

docs/running-a-call.md leads through a call, docs/formats.md has the commands and the texts.
TEXT
}

statuses() {
    cat <<'TEXT'
Exit status, and what is written:
     0  done                                  the report, alone or with a board behind it, `feasible`, the pairs, a slip
                                              or `unlisted`, `slip yes`, a desk file, `same lines N ENDING` or
                                              `migrated lines N`
     1  the words are none of the above       nothing
     2  a line of the input, or its end, is
        refused                               `refused LINE REASON`
     3  no valid assignment exists            the shortage, in three lines
     4  the input or a file could not be
        read                                  nothing
     5  the output could not be written       the front of what was due; with `audit` and `migrate` also where the
                                              audit could not be stored: then the whole text
     6  there was not enough memory           nothing
     7  an audit is not that of its lines     `differs ROW`, the row as it is kept, and the right one
     8  the input or a file is too long       `too-long`
     9  a file is refused                     `bad toml`, `bad key KEY`, `bad record R`,
                                              `bad slip LINE`, `bad desk FILE LINE`,
                                              `bad row R` or `bad withdraw LINE REASON`
    10  a slip prints a wrong chance          `wrong W/D`, the right one
    70  the program could not be built        nothing; only this script ends so
TEXT
}

text_words='refused short too-long bad same differs migrated unlisted wrong withdraw final aside'
reason_words='no-call order form name range known unknown too-many seal few unplaced invalid unfinished'
kind_words='form early late unknown unassigned range'

# What a reason means, for which a line is refused; nothing where the word is none.
meaning() {
    case $1 in
        no-call) echo "there is no \`call\` before this line, or in the whole input" ;;
        order) echo "this command may not come here, or not again, or not beside another that came" ;;
        form) echo "the first word is no command, or the number of words is wrong, or the digest has not 64 digits of 0-9 and a-f" ;;
        name) echo "a name is not 1 to 24 of a-z, 0-9 and -, the first a letter; or a seed not 1 to 64 of letters, digits and -" ;;
        range) echo "a number has leading zeros or other signs than digits, or is not within its bounds: in \`call\` seats 1 to 1,000, clusters 2 to 30, reviews 1 to 20; in \`place\` a cluster of the call; in \`draw\` less than 1,000,000 for each person" ;;
        known) echo "the applicant's name is taken, or the person is in a cluster already, or the pair was given already" ;;
        unknown) echo "a name that has to be a person's is no person's, or one that has to be an applicant's is no applicant's" ;;
        too-many) echo "there are 1,000 applicants already, or 5 of this person" ;;
        seal) echo "the call is sealed, and this is a draw by number, or a lottery whose seed has another seal" ;;
        few) echo "nobody applied before this \`assign\`" ;;
        unplaced) echo "some person is in no cluster, and the clusters are not drawn by a \`partition\`" ;;
        invalid) echo "the \`pair\` lines are no valid assignment" ;;
        unfinished) echo "the input ends after a call and before its \`draw\` or \`lottery\`" ;;
    esac
}

# Why a review line of this kind is set aside; nothing where the word is no kind.
set_aside() {
    case $1 in
        form) echo "it has not exactly 4 words" ;;
        early) echo "no \`assign\` came before it" ;;
        late) echo "\`close\` came before it" ;;
        unknown) echo "the first name is no person's, or the second no applicant's" ;;
        unassigned) echo "the person is not to review this applicant" ;;
        range) echo "the points are no whole number from 0 to 100 without leading zeros" ;;
    esac
}

# Why a line of a file of withdrawals is refused for this reason; nothing where the word is none.
staying() {
    case $1 in
        form) echo "the line is not \`withdraw NAME\`, and no blank line or comment either" ;;
        name) echo "the name is not 1 to 24 of a-z, 0-9 and -, the first a letter" ;;
        unknown) echo "no applicant of the call has the name" ;;
        known) echo "a line before has this applicant withdraw already" ;;
    esac
}

reasons() {
    echo "The reasons of \`refused LINE REASON\`; of several that fit the first in this order is given:"
    for word in $reason_words; do
        printf '  %-12s%s\n' "$word" "$(meaning "$word")"
    done
    echo "The reasons of \`bad withdraw LINE REASON\`:"
    for word in form name unknown known; do
        printf '  %-12s%s\n' "$word" "$(staying "$word")"
    done
    echo "Beside them review lines are set aside: bin/house help kinds"
}

kinds() {
    echo "The kinds of review lines that are set aside, in the order of the report's line \`aside\`:"
    for word in $kind_words; do
        printf '  %-12s%s\n' "$word" "$(set_aside "$word")"
    done
}

help_on_form() {
    case $1 in
        run) cat <<'TEXT'
house run < FILE
Takes the lines of FILE one after another. At `assign` the assignment is the `pair` lines, where there are any, and
is computed where there are none. Review lines are kept, or set aside and counted; they never end a run. Behind the
draw it writes the report: a line for each cluster and for each applicant, with the exact chance that it had.

house run CALL REGISTER < FILE
Does the same behind the lines that the call file CALL, in TOML, and the register REGISTER, in CSV, open the call with:
those of the call, its applicants, partition, places, conflicts and seal. The two files are looked at first, and where
one of them is not of its form, or an opening line is refused, nothing of FILE is read. Lines are counted through both.
docs/formats.md has both files.
TEXT
            ;;
        feasible) cat <<'TEXT'
house feasible < FILE
Takes the lines of FILE up to `assign`, looks at no `pair` lines, and writes `feasible` where some valid assignment
exists, and else the shortage, with exit status 3. Lines behind `assign` are not looked at.
TEXT
            ;;
        pairs) cat <<'TEXT'
house pairs < FILE
Takes the lines of FILE up to `assign` and writes `pair PERSON APPLICANT` for each pair of the assignment: PERSON
reviews APPLICANT. Without `pair` lines in FILE it is computed. Lines behind `assign` are not looked at. What it
writes can be put before `assign` and gives the same assignment again.
TEXT
            ;;
        audit) cat <<'TEXT'
house audit AUDIT < FILE
Does as `run`. Where that is done, and the report is written, it stores the audit of the run as AUDIT, in the place of
what was there: a row for each line of FILE, with what became of it, chained by digests, and the report. With any other
answer no file is changed, but that where the audit cannot be stored (exit status 5) AUDIT may hold anything. Who has an
audit has every review in clear.
TEXT
            ;;
        slip) cat <<'TEXT'
house slip NAME < FILE
Does as `run`, and in the place of the report it writes the slip of the applicant NAME: its chance, the applicants of its
cluster, and the whole ballots of all persons who reviewed one of them; or the line `unlisted` where NAME is no
applicant's. No review by NAME's own person is in it. `check` says of a slip whether its chance is right. Who has it sees
what these persons gave to whom.

slip yes
What `check` says of a slip whose chance is the right one by its own lines; else it says `wrong W/D`.
TEXT
            ;;
        reserve) cat <<'TEXT'
house reserve WITHDRAWALS < FILE
Loads the file WITHDRAWALS, which has a line `withdraw NAME` for each applicant that withdraws, and then does as
`run`. Behind the report it writes who moves up for each, in the order of the file, and the board: of each applicant
the chance that it has given these withdrawals, and whether it holds a seat then, waits, or is gone. A seat passes to
the next rank of its own cluster and nowhere else; in which order the lines stand changes nothing of the board. Where
the run ends otherwise, it is told as by `run`, whatever stands in WITHDRAWALS. bin/house help final
TEXT
            ;;
        check) cat <<'TEXT'
house check FILE
Reads no input. Says of the slip FILE, by its own lines, whether the chance that it prints is the right one: `slip yes`,
or `wrong W/D` with the right one and exit status 10. Whether its ballots are those that were handed in, a slip does
not tell: docs/checking.md says what to hold them against.
TEXT
            ;;
        replay) cat <<'TEXT'
house replay FILE
Reads no input. Runs the lines that the audit FILE holds again, and says `same lines N done` where FILE is their audit,
byte for byte, N being how many lines it holds; `refused` or `short` stands there where they end so. Else it says which
row is the first that differs, with exit status 7: bin/house help differs. Who wrote a line, no audit tells.
TEXT
            ;;
        migrate) cat <<'TEXT'
house migrate OLD NEW
Reads no input. Replays the audit OLD, of either version, and where it is that of its lines says `migrated lines N`, and
then stores their audit of the second version as NEW, in the place of what was there; NEW may be OLD. With any other
answer, which is that of `replay`, no file is changed, but that where the new audit cannot be stored (exit status 5) NEW
may hold anything.
TEXT
            ;;
        join) cat <<'TEXT'
house join FILE FILE
Reads no input. Writes the desk file that has the entries of both: of two for one pair of a reviewer and a proposal that
of the higher revision, and with equal revisions that of the more points. Which file is named first, or one named twice,
changes nothing, and what is written can be joined with further files. docs/formats.md, "Desk files".
TEXT
            ;;
    esac
}

help_on_text() {
    case $1 in
        refused) cat <<'TEXT'
refused LINE REASON
A line of the input, or its end, may not come where it stands; nothing behind it was looked at. Lines are counted from 1,
those with which a call file and a register open a call before those of the input. bin/house help REASON
TEXT
            ;;
        short) cat <<'TEXT'
short allowed ALLOWED needed NEEDED, and two lines of names
No valid assignment exists: of the pairs between these persons and these applicants NEEDED would have to be, and
ALLOWED may be. docs/running-a-call.md says how to mend it.
TEXT
            ;;
        too-long) cat <<'TEXT'
too-long
The input has more than 16,777,216 bytes or 1,048,576 lines, and no line within these limits ended the run; or a call
file, a register, a slip, a desk file or a file of withdrawals has more than 16,777,216 bytes, or an audit more than
268,435,456.
TEXT
            ;;
        bad) cat <<'TEXT'
bad toml, bad key KEY, bad record R, bad slip LINE, bad desk FILE LINE, bad row R, bad withdraw LINE REASON
The call file is no TOML document; what it has under KEY, or lacks there, is not as it has to be (`other` is any key
without a meaning); the record R of the register is not of its form. Records are counted from 1, the header among them,
blank lines not, and a quoted field may go over several lines. docs/formats.md, "The call file and the register". Of a
slip LINE is the first line off its form, from 1, or one more than it has where no member is there; "Slips" there. Of
desk files FILE is 1 for the first that is named, and LINE its first line off the form; "Desk files" there. Of an audit
R is the first row off its form, from 1, bytes behind the last line feed being a row, or one more than it has where its
report is missing; "The audit file" there. Of a file of withdrawals LINE is the first line that is refused, from 1, for
the first reason that fits; "Withdrawals" there. It is looked at behind the report, which is not written then.
TEXT
            ;;
        same) cat <<'TEXT'
same lines N ENDING
The file is the audit of the N lines that it holds. ENDING is how they end: `done` with a report, `refused` or `short`.
TEXT
            ;;
        differs) cat <<'TEXT'
differs ROW, and the lines `kept ..` and `right ..`
All rows of the file are of the form of an audit, and it is not that of its lines. ROW is the first row, from 1, that
is not as the lines of the file have it: behind `kept` as it stands in the file, behind `right` as it stands in their
audit. The header is the first row, and line L of the run is row L + 1.
TEXT
            ;;
        migrated) cat <<'TEXT'
migrated lines N
The old file is the audit of the N lines that it holds, and their audit of the second version is stored.
TEXT
            ;;
        unlisted) cat <<'TEXT'
unlisted
No applicant of the call has the name behind `slip`. A person's name is its applicant's only where it applied under it.
TEXT
            ;;
        wrong) cat <<'TEXT'
slip yes, or wrong W/D
The chance that the slip prints is the right one by the slip's own lines; or it is another, and W of D draws is right.
TEXT
            ;;
        withdraw) cat <<'TEXT'
withdraw NAME up OTHER
NAME withdraws, and its seat passes to OTHER, the next rank of its cluster; or, with `-` there, it held no seat, or nobody
of its cluster waits for one.
TEXT
            ;;
        final) cat <<'TEXT'
final NAME chance X/D yes, no or gone
How NAME stands given the withdrawals: it holds a seat (`yes`) or none (`no`), or has withdrawn (`gone`). Of all D draws X
would give it a seat, these having withdrawn; none, where it is gone. Who stays has no less than in the report. The line
`empty E` behind these counts the seats that nobody holds.
TEXT
            ;;
        aside) cat <<'TEXT'
aside FORM EARLY LATE UNKNOWN UNASSIGNED RANGE
How many review lines the report left out, by kind. bin/house help kinds
TEXT
            ;;
    esac
}

help_on() {
    told=$(help_on_form "$1" && help_on_text "$1")
    if [ -n "$told" ]; then
        printf '%s\n' "$told"
        return
    fi
    case $1 in
        reason | reasons) reasons ;;
        kind | kinds) kinds ;;
        status | statuses) statuses ;;
        help | --help | -h | version | --version) forms ;;
        *)
            what=$(meaning "$1")
            why=$(set_aside "$1")
            stays=$(staying "$1")
            if [ -z "$what$why$stays" ]; then
                say "there is no help on this word; bin/house help lists the words"
                return 1
            fi
            [ -z "$what" ] || printf 'refused LINE %s: %s\n' "$1" "$what"
            [ -z "$stays" ] || printf 'bad withdraw LINE %s: %s\n' "$1" "$stays"
            [ -z "$why" ] || printf 'a review line is set aside as `%s`: %s\n' "$1" "$why"
            printf 'docs/formats.md has an example of each.\n'
            ;;
    esac
}

version() {
    commit=$(git -C "$here" rev-parse --short=12 HEAD 2>/dev/null) || commit=unknown
    if [ "$commit" != unknown ] && [ -n "$(git -C "$here" status --porcelain 2>/dev/null)" ]; then
        commit="$commit with changes"
    fi
    kit=$(rt version 2>/dev/null) || kit=unknown
    printf 'house %s\ntoolchain %s\n' "$commit" "$kit"
}
