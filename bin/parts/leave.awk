# Says what is wrong with the refused line of a file of withdrawals, in one line, or writes nothing where it cannot
# tell. It is run behind words.awk.
#
# The input is the file of withdrawals and then the command file, in both of which each CR is the byte 1 and every
# other byte that is not printable is `?`. Variables: number, the refused line's; reason; bytes, those of the refused
# line as decimal numbers.

function on_form() {
    if (tolower(word[1]) == "withdraw" && word[1] != "withdraw") return "the word is written in small letters: `withdraw`"
    if (word[1] != "withdraw") return "`" word[1] "` is not the word of such a line, which is `withdraw NAME`"
    if (words > 2) return "it has " words - 1 " words behind `withdraw`, and one applicant a line withdraws"
    return "the name is missing of the applicant that withdraws"
}

function on_unknown(    name) {
    name = word[2]
    if (name in names) return "`" name "` is a person, and here an applicant is named: its applicants are" names[name]
    return "no `applicant` line of the call names an applicant `" name "`"
}

function answer() {
    if (reason == "form") return on_form()
    if (reason == "name") return off_name(2)
    if (reason == "unknown") return on_unknown()
    if (reason == "known") return "line " left_at[word[2]] " has it withdraw already"
    return ""
}

{ sub(/\001$/, "") }

FNR == NR {
    if (NR < number && $1 == "withdraw") left_at[$2] = NR
    if (NR == number) {
        words = NF
        for (i = 1; i <= NF; i++) word[i] = $i
    }
    next
}

$1 == "applicant" {
    person = NF > 2 ? $3 : $2
    names[person] = names[person] " " $2
}

END {
    find_words()
    said = answer()
    if (said != "") print said
}
