# What went wrong, on standard error, for bin/house: from the words, the input and the program's answer.

# A word as it can be typed into a shell.
quoted() {
    case $1 in
        '' | *[!A-Za-z0-9_./,:=@%+-]*)
            printf "'%s'" "$(printf '%s' "$1" | sed "s/'/'\\\\''/g" | LC_ALL=C tr '\1-\37\177' '?')"
            ;;
        *) printf '%s' "$1" ;;
    esac
}

# Words as they can be typed into a shell.
all_quoted() {
    printf '%s' "$(quoted "$1")"
    shift
    for word in "$@"; do
        printf ' %s' "$(quoted "$word")"
    done
}

# Whether a word is of the form of a name.
is_name() {
    [ -n "$1" ] && [ ${#1} -le 24 ] && [ -z "$(printf '%s' "$1" | LC_ALL=C tr -d 'a-z0-9-')" ] \
        && [ -z "$(printf '%.1s' "$1" | LC_ALL=C tr -d 'a-z')" ]
}

# The forms of words that the program has: how many there are, and the first; names of files are not empty, and a name is
# of its form.
is_form() {
    case $#:${1-} in
        1:run | 1:feasible | 1:pairs) ;;
        3:run) [ -n "$2" ] && [ -n "$3" ] ;;
        2:audit | 2:check | 2:replay | 2:reserve) [ -n "$2" ] ;;
        2:slip) is_name "$2" ;;
        3:join | 3:migrate) [ -n "$2" ] && [ -n "$3" ] ;;
        *) return 1 ;;
    esac
}

# Whether the program has the words; says what is wrong where it has not.
are_words() {
    is_form "$@" && return 0
    case ${1-} in
        run | feasible | pairs)
            if [ "$1:$#" = run:3 ]; then
                say "the name of a file is empty: bin/house run CALL REGISTER < FILE"
            elif [ "$1:$#" = run:2 ] && [ -e "$2" ]; then
                say "the file goes to standard input: bin/house run < $(quoted "$2"); a call file and a register are two words: bin/house run CALL REGISTER < FILE"
            elif [ -e "$2" ]; then
                say "the file goes to standard input: bin/house $1 < $(quoted "$2")"
            else
                say "\`$1\` takes no further words; the file goes to standard input: bin/house $1 < FILE"
            fi
            ;;
        audit)
            if [ $# = 2 ]; then
                say "the name of a file is empty: bin/house audit AUDIT < FILE"
            elif [ $# = 1 ]; then
                say "the name of the file is missing into which the audit goes: bin/house audit AUDIT < FILE"
            else
                say "\`audit\` stores one file, and the input goes to standard input: bin/house audit AUDIT < FILE"
            fi
            ;;
        slip)
            if [ $# = 1 ]; then
                say "the name of the applicant is missing whose slip is asked for: bin/house slip NAME < FILE"
            elif [ $# -gt 2 ]; then
                say "\`slip\` takes one name at a time, and the file goes to standard input: bin/house slip NAME < FILE"
            elif [ -f "$2" ]; then
                say "\`slip\` takes the name of an applicant, and the file goes to standard input: bin/house slip NAME < $(quoted "$2")"
            else
                say "$(quoted "$2") is no name: 1 to 24 of a-z, 0-9 and -, the first a letter: bin/house slip NAME < FILE"
            fi
            ;;
        reserve)
            if [ $# = 2 ]; then
                say "the name of a file is empty: bin/house reserve WITHDRAWALS < FILE"
            elif [ $# = 1 ]; then
                say "the name of the file is missing that has the withdrawals: bin/house reserve WITHDRAWALS < FILE"
            else
                say "\`reserve\` takes one file of withdrawals, and the input goes to standard input: bin/house reserve WITHDRAWALS < FILE"
            fi
            ;;
        check)
            if [ $# = 2 ]; then
                say "the name of a file is empty: bin/house check FILE"
            elif [ $# = 1 ]; then
                say "the name of the slip is missing, which is no input: bin/house check FILE"
            else
                say "\`check\` takes one slip at a time: bin/house check FILE"
            fi
            ;;
        replay)
            if [ $# = 2 ]; then
                say "the name of a file is empty: bin/house replay FILE"
            elif [ $# = 1 ]; then
                say "the name of the audit is missing, which is no input: bin/house replay FILE"
            else
                say "\`replay\` takes one audit at a time: bin/house replay FILE"
            fi
            ;;
        migrate)
            if [ $# = 3 ]; then
                say "the name of a file is empty: bin/house migrate OLD NEW"
            elif [ $# -gt 3 ]; then
                say "\`migrate\` takes one audit at a time, and the name of the new one: bin/house migrate OLD NEW"
            else
                say "\`migrate\` takes the name of an audit, and that of the new one, which may be the same: bin/house migrate OLD NEW"
            fi
            ;;
        join)
            if [ $# = 3 ]; then
                say "the name of a file is empty: bin/house join FILE FILE"
            elif [ $# -gt 3 ]; then
                say "\`join\` takes two desk files at a time, and what it writes can be joined with a third: bin/house join FILE FILE"
            else
                say "\`join\` takes the names of two desk files, which are no input: bin/house join FILE FILE"
            fi
            ;;
        '') say "a word is missing: bin/house help lists them" ;;
        *)
            low=$(printf '%s' "$1" | LC_ALL=C tr 'A-Z' 'a-z')
            if [ -n "$(help_on_form "$low")" ]; then
                case $low in
                    audit) say "words are written in small letters: bin/house audit AUDIT < FILE" ;;
                    slip) say "words are written in small letters: bin/house slip NAME < FILE" ;;
                    reserve) say "words are written in small letters: bin/house reserve WITHDRAWALS < FILE" ;;
                    check | replay) say "words are written in small letters: bin/house $low FILE" ;;
                    migrate) say "words are written in small letters: bin/house migrate OLD NEW" ;;
                    join) say "words are written in small letters: bin/house join FILE FILE" ;;
                    *) say "words are written in small letters: bin/house $low < FILE" ;;
                esac
            elif [ -f "$1" ]; then
                say "a word is missing before the file: bin/house run < $(quoted "$1")"
            elif [ -n "$(meaning "$1")$(set_aside "$1")$(help_on_text "$1")" ]; then
                say "$1 is a word of the answers: bin/house help $1 says what it means"
            else
                say "$(quoted "$1") is no word of the program; there are run, feasible, pairs, audit, slip, reserve, check, replay, migrate and join: bin/house help"
            fi
            ;;
    esac
    return 1
}

# What the bytes show with which the file $1 begins, or those of the refused line, where they are not of plain lines;
# nothing else. The file is the input, or is called otherwise.
off_encoding() {
    what=${3:-the input}
    case $(head -c 3 "$1" | od -An -v -tu1) in
        ' 239 187 191')
            echo "$what begins with a byte order mark, which belongs to its first word; without it: tail -c +4 FILE"
            return
            ;;
        ' 255 254'* | ' 254 255'*)
            echo "$what is UTF-16, two bytes a letter; to make plain text of it: iconv -f UTF-16 -t UTF-8 FILE"
            return
            ;;
    esac
    case "$2 " in
        ' 239 187 191'*) echo "the line begins with a byte order mark, as a file does that was appended" ;;
        *' 0 '*) echo "the line has zero bytes, as UTF-16 has, and so it is no plain text" ;;
        *' 13 '[0-9]*)
            printf '%s\n' "the line has CR within it; where CR ends lines, as old Macs wrote them: tr '\\r' '\\n' < FILE"
            ;;
    esac
}

# The clusters that a seed draws, a line PERSON CLUSTER for each person of the prepared input.
draw_clusters() {
    awk -v number="$2" '
        { sub(/\001$/, "") }
        NR >= number { exit }
        $1 == "applicant" { who = NF > 2 ? $3 : $2; if (!(who in seen)) print who; seen[who] }' "$1" \
        | while read -r person; do
            digest=$(printf 'partition:%s:%s' "$3" "$person" | sha256sum)
            printf '%s %s\n' "${digest%% *}" "$person"
        done | LC_ALL=C sort | awk -v clusters="$4" '{ print $2, 1 + (NR - 1) % clusters }'
}

# What the program answers once more on the input in the file $1 with the other words: the number and the reason of its
# refusal, or nothing.
ask_again() {
    number= reason=
    input=$1
    shift
    answer=$("$program" "$@" <"$input" 2>/dev/null)
    number=$(printf '%s\n' "$answer" | sed -n 's/^refused \([0-9]*\) [a-z-]*$/\1/p')
    reason=$(printf '%s\n' "$answer" | sed -n 's/^refused [0-9]* \([a-z-]*\)$/\1/p')
}

# The line `number` of the lines in the file $1, as it can be shown, and its first bytes as decimal numbers.
find_line() {
    bytes=$(tail -n "+$number" "$1" 2>/dev/null | head -n 1 | head -c 2000 | od -An -v -tu1 | tr -s ' \n' '  ' \
        | sed 's/ 10 *$//')
    LC_ALL=C tr '\15' '\1' <"$1" | LC_ALL=C tr -c '\1\11\12\40-\176' '?' >"$room/plain"
    line=$(sed -n "$number{p;q;}" "$room/plain" | tr -d '\1' | cut -c 1-160)
}

# Says what the reason means, and what is wrong with that line.
explain_line() {
    say "$reason: $(meaning "$reason")"
    off=$(off_encoding "$1" "$bytes")
    if [ -z "$off" ]; then
        : >"$room/drawn"
        if [ "$reason" = invalid ]; then
            seed=$(awk -v number="$number" '{ sub(/\001$/, "") } NR >= number { exit } $1 == "partition" { print $2 }' \
                "$room/plain")
            clusters=$(awk '{ sub(/\001$/, "") } $1 == "call" { print $3; exit }' "$room/plain")
            [ -z "$seed" ] || draw_clusters "$room/plain" "$number" "$seed" "$clusters" >"$room/drawn"
        fi
        off=$(awk -v number="$number" -v reason="$reason" -v bytes="$bytes" -v drawn="$room/drawn" \
            -f "$here/bin/parts/words.awk" -f "$here/bin/parts/explain.awk" "$room/plain" | cut -c 1-300)
    fi
    [ -z "$off" ] || say "here: $off"
}

# Shows the refused line of the input in the file $1, for which the program with the other words is asked once more.
show_refused() {
    ask_again "$@"
    if [ -z "$number" ]; then
        refused_somewhere
        return
    fi
    find_line "$1"
    if [ -n "$line" ]; then
        say "line $number is refused: $line"
    elif [ "$number" = 1 ]; then
        say "the input is refused: it has no lines"
    else
        say "the input is refused at its end, behind its line $((number - 1))"
    fi
    explain_line "$1"
}

refused_somewhere() {
    say "a line of the input, or its end, was refused; bin/house help REASON says what the reason means"
}

# A file in which the last line has no end: what is appended to it next joins that line. It is standard input, or is
# called otherwise.
warn_of_open_end() {
    if [ -s "$1" ] && [ "$(tail -c 1 <"$1" | od -An -tu1 | tr -d ' ')" != 10 ]; then
        say "the last line of ${2:-the file} has no line end: what is appended next would join it (echo >> FILE ends it)"
    fi
}

# The same of a call that two files open: the line is one of the opening, or one of the input in the file $1.
show_refused_behind() {
    ask_again "$@"
    if [ -z "$number" ]; then
        refused_somewhere
        return
    fi
    # The first line behind the opening, where a line that is no command gets that far.
    shift
    first=$(printf 'hello\n' | "$program" "$@" 2>/dev/null | sed -n 's/^refused \([0-9]*\) form$/\1/p')
    opening_lines "$2" "$3" >"$room/opening"
    count=$(wc -l <"$room/opening")
    if [ -n "$first" ] && [ "$count" != $((first - 1)) ] || [ -z "$first" ] && [ "$count" -lt "$number" ]; then
        say "line $number is refused, counted through those with which the call file and the register open the call"
        say "$reason: $(meaning "$reason")"
        return
    fi
    cat "$room/opening" "$input" >"$room/whole"
    find_line "$room/whole"
    if [ "$number" -le "$count" ]; then
        record=$(record_of "$number" "$3")
        case $line in
            applicant*) say "line $number is refused; record $number of $(quoted "$3") gives it ($record): $line" ;;
            *) say "line $number is refused; it is one of the $count that open the call: $line" ;;
        esac
    elif [ -n "$line" ]; then
        at=$((number - count))
        say "line $number is refused; it is line $at of the input, behind $count that open the call: $line"
    else
        say "the input is refused at its end, behind its line $((number - count - 1)) and $count that open the call"
    fi
    explain_line "$room/whole"
}

# The value of the key $2 in the call file $1, where it stands on a line of its own; else nothing.
value_of() {
    LC_ALL=C tr -d '\15' <"$1" | LC_ALL=C sed -e "s/^[[:blank:]]*$2[[:blank:]]*=[[:blank:]]*//" -e t -e d \
        | LC_ALL=C sed -n -e 's/^"\{0,1\}\([A-Za-z0-9-]*\)"\{0,1\}[[:blank:]]*$/\1/p' \
            -e 's/^"\{0,1\}\([A-Za-z0-9-]*\)"\{0,1\}[[:blank:]]*#.*$/\1/p' | head -n 1
}

# The lines with which the call file $1 and the register $2 open a call, both being of their form; none where the call
# file is written otherwise than by a key a line.
opening_lines() {
    for key in seats clusters reviews; do
        [ -n "$(value_of "$1" "$key")" ] || return
    done
    echo "call $(value_of "$1" seats) $(value_of "$1" clusters) $(value_of "$1" reviews)"
    plain_register "$2" | LC_ALL=C awk -v opens=1 -v seed="$(value_of "$1" partition)" -v seal="$(value_of "$1" seal)" \
        -f "$here/bin/parts/record.awk"
}

plain_register() {
    LC_ALL=C tr '\15' '\12' <"$1" | LC_ALL=C tr -c '\11\12\40-\176' '\1'
}

# The record of a register with a number, on one line, or with a further word what is wrong with it. The applicants' lines
# stand behind that of the call, and the records behind the header: so both have the same numbers.
record_of() {
    plain_register "$2" | LC_ALL=C awk -v wanted="$1" -v why="${3:+1}" -f "$here/bin/parts/record.awk"
}

# Shows the line of the call file $1 that has the key $2 in front, or says that there is none such.
key_line() {
    found=$(LC_ALL=C tr -c '\11\12\40-\176' '?' <"$1" | grep "^[[:blank:]]*$2[[:blank:]]*=" | head -n 1 | cut -c 1-160)
    if [ -n "$found" ]; then
        printf 'is not as it has to be: %s' "$found"
    else
        printf 'is missing, or not as it has to be'
    fi
}

# Which file is refused, where, and what has to stand there; the words are those of the call. In the place of `migrate`
# `replay` is asked, which stores nothing and refuses the same.
show_bad_file() {
    if [ "$1" = migrate ]; then
        answer=$("$program" replay "$2" </dev/null 2>/dev/null)
    else
        answer=$("$program" "$@" </dev/null 2>/dev/null)
    fi
    case $answer in
        'bad toml') say "$(quoted "$2") is no TOML document: a key, \`=\` and a value on a line, texts in double quotes, no key twice" ;;
        'bad key other') say "$(quoted "$2") has a key without a meaning; there are version, seats, clusters, reviews, partition and seal" ;;
        'bad key '*)
            key=${answer#bad key }
            case $key in
                version) may="1 or 2, or is left out" ;;
                seats) may="a whole number from 1 to 1000" ;;
                clusters) may="a whole number from 2 to 30" ;;
                reviews) may="a whole number from 1 to 20" ;;
                partition) may="1 to 64 letters, digits and - in double quotes, or is left out" ;;
                *) may="64 digits of 0-9 and a-f in double quotes, or is left out" ;;
            esac
            say "in $(quoted "$2") the key $key $(key_line "$2" "$key")"
            say "$key is $may"
            ;;
        'bad record 1')
            say "the first record of $(quoted "$3") is not the header of its version: $(record_of 1 "$3")"
            say "the header is name,cluster,conflicts, and in version 2 name,person,cluster,conflicts"
            ;;
        'bad record '*)
            number=${answer#bad record }
            off=$(record_of "$number" "$3" why)
            say "record $number of $(quoted "$3"), the header counted, is not of its form: $(record_of "$number" "$3")"
            say "here: ${off:-a record has as many fields as the header, each of the form that docs/formats.md says}"
            ;;
        'bad slip '*)
            number=${answer#bad slip }
            line=$(sed -n "${number}p" "$2" 2>/dev/null | cut -c 1-300 | LC_ALL=C tr '\1-\10\13-\37\177' '?')
            if [ -n "$line" ]; then
                say "line $number of $(quoted "$2") is off the form of a slip, or may not stand there: $line"
            else
                say "$(quoted "$2") has no line $number that a slip has to have there, or it is empty"
            fi
            ;;
        'bad desk '*)
            number=${answer#bad desk }
            file=$2
            [ "${number% *}" = 1 ] || file=$3
            number=${number#* }
            line=$(sed -n "${number}p" "$file" 2>/dev/null | cut -c 1-300 | LC_ALL=C tr '\1-\10\13-\37\177' '?')
            say "line $number of $(quoted "$file") is off the form of a desk file, or its names do not come behind those before: $line"
            ;;
        'bad row '*) show_bad_row "${answer#bad row }" "$2" ;;
        *) say "a file is not of its form; bin/house help bad" ;;
    esac
}

# Which line of a file of withdrawals is refused, and what is wrong with it. The program with the other words is asked once
# more on the input in the file $1; where that is not kept, it is not.
show_bad_withdrawal() {
    source=$1
    shift
    file=$2
    case $file in
        -*) file=./$file ;;
    esac
    answer=
    [ -z "$source" ] || answer=$("$program" "$@" <"$source" 2>/dev/null)
    case $answer in
        'bad withdraw '*) ;;
        *)
            say "a line of $(quoted "$2") is refused; bin/house help REASON says what the reason means"
            return
            ;;
    esac
    reason=${answer##* }
    number=${answer#bad withdraw }
    number=${number% *}
    LC_ALL=C tr '\15' '\1' <"$source" | LC_ALL=C tr -c '\1\11\12\40-\176' '?' >"$room/call"
    find_line "$file"
    say "line $number of $(quoted "$2") is refused: $line"
    say "$reason: $(staying "$reason")"
    off=$(off_encoding "$file" "$bytes" "the file")
    [ -n "$off" ] || off=$(awk -v number="$number" -v reason="$reason" -v bytes="$bytes" -f "$here/bin/parts/words.awk" \
        -f "$here/bin/parts/leave.awk" "$room/plain" "$room/call" | cut -c 1-300)
    [ -z "$off" ] || say "here: $off"
}

# The row $1 of the audit $2, as it can be shown.
row_of() {
    sed -n "$1{p;q;}" "$2" 2>/dev/null | head -c 300 | LC_ALL=C tr '\1-\11\13-\37\177-\377' '?'
}

# What is wrong with the row $1 of the audit $2, which is the first off its form.
show_bad_row() {
    file=$(quoted "$2")
    row=$(row_of "$1" "$2")
    whole=$(wc -l <"$2")
    case $(row_of $(($1 - 1)) "$2") in
        '{"report":'*) behind=report ;;
        *) behind= ;;
    esac
    if [ ! -s "$2" ]; then
        say "$file is empty"
    elif [ "$1" -gt "$whole" ] && [ -n "$row" ]; then
        say "row $1 of $file has no line feed at its end, as where a file was cut: $row"
    elif [ "$1" -gt "$whole" ]; then
        say "$file has no row $1: the row with the report is missing, as where a file was cut"
    elif [ -n "$behind" ]; then
        say "row $1 of $file stands behind the report, where nothing may stand: $row"
    else
        say "row $1 of $file is off the form of an audit: $row"
    fi
    [ "$1" != 1 ] || say 'the first row is {"format":"peer-house-audit","version":2}, or has the version 1'
}

# Which row of the audit $1 is the first that is not as its lines have it. Asked is `replay`, which stores nothing.
show_difference() {
    row=$("$program" replay "$1" </dev/null 2>/dev/null | sed -n '1s/^differs \([0-9]*\)$/\1/p')
    file=$(quoted "$1")
    case $row:$(row_of "${row:-1}" "$1") in
        :*) say "the audit is not that of its lines; bin/house help differs" ;;
        1:*) say "the header of $file is not written as the program writes it: \`kept\` stands there, \`right\` has to" ;;
        *:'{"report":'*) say "row $row of $file has another report than its lines come to: \`kept\` stands there, \`right\` has to" ;;
        *) say "row $row of $file, of its line $((row - 1)), is the first that is not as its lines have it: \`kept\` stands there, \`right\` has to" ;;
    esac
}

# One line on what happened, where the program's own answer may not say it. Behind the status stands what the answer may
# be of: `files` beside the input, or the word that reads no input, stores a file, or loads one beside the input.
explain() {
    unread="the input"
    long="the input has more than 16,777,216 bytes or 1,048,576 lines"
    or_the_audit=
    case ${2-} in
        files | reserve) unread="the input or a file" long="$long, or a file has more than 16,777,216 bytes" ;;
        check | join) unread="a file" long="a file has more than 16,777,216 bytes" ;;
        replay | migrate) unread="the audit" long="the audit has more than 268,435,456 bytes" ;;
    esac
    case ${2-} in
        audit | migrate) or_the_audit=", or it was and the audit could not be stored" ;;
    esac
    case $1 in
        1) say "these words are none of the program's; bin/house help lists them" ;;
        3) say "no valid assignment exists; docs/running-a-call.md says how to read this shortage" ;;
        4) say "$unread could not be read, so nothing was written; see the file or the command before the pipe" ;;
        5) say "the output could not be written whole$or_the_audit; see the disk, or the command behind the pipe" ;;
        6) say "there was not enough memory, so nothing was written" ;;
        8) say "$long" ;;
        129 | 1[3-5][0-9]) say "the program was ended by the signal $(($1 - 128))" ;;
    esac
}
