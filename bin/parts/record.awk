# Shows a record of a register on one line, or says with why=1 what is wrong with it, and nothing where it cannot tell;
# or, with opens=1, gives the lines with which a register of the right form opens a call, behind that of the call.
#
# The input is the register, in which each CR is a line feed and each other byte that is not printable is the byte 1.
# Blank lines are no records, and a field in quotes may go over lines. Variables: wanted, the number of the record; seed
# and seal, those of the call file, if any.

function printed(text) {
    gsub(/\001/, "?", text)
    gsub(/\n/, " / ", text)
    return substr(text, 1, 160)
}

# The fields of a record, into `field`; how many there are.
function split_fields(record,    i, c, count, quoted, bare) {
    count = 1
    field[1] = ""
    bare = 1
    for (i = 1; i <= length(record); i++) {
        c = substr(record, i, 1)
        if (c == "\"" && quoted && substr(record, i + 1, 1) == "\"") { field[count] = field[count] c; i++ }
        else if (c == "\"" && quoted) quoted = 0
        else if (c == "\"" && bare) { quoted = 1; bare = 0 }
        else if (c == "," && !quoted) { field[++count] = ""; bare = 1 }
        else { field[count] = field[count] c; bare = 0 }
    }
    return count
}

function shown(c) {
    if (c == "\001") return "a sign beyond ASCII"
    if (c == "\n") return "a line end"
    return c == "\t" ? "a tab" : "`" c "`"
}

# What a name lacks, or nothing.
function off_name(name) {
    if (name == "") return "a name is empty"
    if (name !~ /^[a-z]/) {
        return "a name begins with a letter of a-z, and `" printed(name) "` begins with " shown(substr(name, 1, 1))
    }
    if (match(name, /[^a-z0-9-]/)) {
        return "a name has only a-z, 0-9 and -, and `" printed(name) "` has " shown(substr(name, RSTART, 1)) \
            " as byte " RSTART
    }
    if (length(name) > 24) return "a name has at most 24 bytes, and `" name "` has " length(name)
    return ""
}

function off_conflicts(text,    words, count, i, off) {
    if (text ~ /\t/) return "names in the last column have spaces between them, and there is a tab"
    count = split(text, words, / +/)
    for (i = 1; i <= count; i++) {
        off = words[i] == "" ? "" : off_name(words[i])
        if (off != "") return off ", in the last column"
    }
    return ""
}

function off_cluster(text) {
    if (text == "" || text ~ /^([1-9]|[12][0-9]|30)$/) return ""
    return "a cluster is a number from 1 to 30 or empty, and here it is `" printed(text) "`"
}

# What is off at a record behind the header, which has so many columns.
function off_record(count, columns,    off) {
    if (count != columns) return "it has " count " fields, and the header has " columns
    off = off_name(field[1])
    if (off == "" && columns == 4 && field[2] != "") off = off_name(field[2]) ", as the person"
    if (off ~ /^, /) off = ""
    if (off == "") off = off_cluster(field[columns - 1])
    if (off == "") off = off_conflicts(field[columns])
    if (off == "" && field[columns - 1] != "") off = "the cluster has to be empty where the call file has a partition"
    return off
}

# The lines of a record: its applicant's at once, its place and its conflicts later.
function open_record(    person, cluster, words, count, i) {
    person = columns == 4 && field[2] != "" ? field[2] : field[1]
    print "applicant " field[1] (person == field[1] ? "" : " " person)
    cluster = field[columns - 1]
    if (cluster != "" && !(columns == 4 && (person, cluster) in placed)) {
        placed[person, cluster]
        places = places "place " person " " cluster "\n"
    }
    count = split(field[columns], words, " ")
    for (i = 1; i <= count; i++) conflicts = conflicts "conflict " person " " words[i] "\n"
}

NR == 1 { sub(/^\001\001\001/, "") }
open == "" && $0 == "" { next }
{
    record = open == "" ? $0 : record "\n" $0
    quotes = gsub(/"/, "\"")
    if (quotes % 2) open = open == "" ? "open" : ""
    if (open != "") next
    number++
    if (number == 1) columns = split_fields(record)
    else if (opens) { split_fields(record); open_record() }
    if (number == wanted) {
        if (!why) print printed(record)
        else if (number > 1) print off_record(split_fields(record), columns)
        exit
    }
}
END {
    if (!opens) exit
    if (seed != "") print "partition " seed
    printf "%s%s", places, conflicts
    if (seal != "") print "seal " seal
}
