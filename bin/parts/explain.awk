# Says what is wrong with the refused line of a command file, in one line, or writes nothing where it cannot tell. It
# is run behind words.awk.
#
# The input is the command file, in which each CR is the byte 1 and every other byte that is not printable is `?`.
# Variables: number, the refused line's, one more than the last where the end is refused; reason; bytes, those of the
# refused line as decimal numbers; drawn, a file of lines PERSON CLUSTER where the clusters are drawn from a seed.

function with_commas(n,    text) {
    text = n
    while (match(text, /[0-9][0-9][0-9][0-9]+/)) {
        text = substr(text, 1, RSTART + RLENGTH - 4) "," substr(text, RSTART + RLENGTH - 3)
    }
    return text
}

# --------------------------------------------------------------------------------------- the lines that were taken

function take() {
    if ($1 == "call") { seats = $2; clusters = $3; reviews = $4; at["call"] = NR }
    else if ($1 == "applicant") {
        person = NF > 2 ? $3 : $2
        person_of[$2] = person
        applied_at[$2] = NR
        if (!(person in own)) people[++persons] = person
        own[person]++
        names[person] = names[person] " " $2
        applicants[++count] = $2
    }
    else if ($1 == "conflict") barred[$2, $3] = NR
    else if ($1 == "place") { cluster_of[$2] = $3; placed_at[$2] = NR; at["place"] = NR }
    else if ($1 == "pair") { reviewer[++pairs] = $2; proposal[pairs] = $3; pair_at[$2, $3] = NR; pair_line[pairs] = NR }
    else if ($1 != "review") at[$1] = NR
}

# ------------------------------------------------------------------------------------------------ bytes of a word

# What a seed lacks, or nothing.
function off_seed(k,    i, b) {
    for (i = 0; i < width[k]; i++) {
        b = byte[from[k] + i]
        if (!is_lower(b) && !is_upper(b) && !is_digit(b) && b != 45) {
            return "a seed has only letters, digits and -, and `" word[k] "` has " shown(b) " as byte " i + 1
        }
    }
    if (width[k] > 64) return "a seed has at most 64 bytes, and this one has " width[k]
    return ""
}

# What is off at a number that has to be at least `least` and at most `most`, or nothing.
function off_number(text, least, most, what) {
    if (text !~ /^[0-9]+$/) return what " is `" text "`, and has to be a whole number in digits alone"
    if (text ~ /^0./) return what " is `" text "`, and may not begin with 0"
    if (length(text) > length(most) || text + 0 > most + 0 || text + 0 < least) {
        return what " is " text ", and has to be " with_commas(least) " to " with_commas(most)
    }
    return ""
}

function first_of(a, b, c) { return a != "" ? a : b != "" ? b : c }

# ---------------------------------------------------------------------------------------------------- the reasons

function on_order(verb) {
    if (verb == "close") {
        if (!("assign" in at)) return "`close` has to come behind `assign`, which is not there yet"
        return "line " at["close"] " has closed the reviewing already"
    }
    if (verb == "draw" || verb == "lottery") {
        if (!("assign" in at)) return "`" verb "` has to come behind `assign` and `close`, and neither is there yet"
        if (!("close" in at)) return "`" verb "` has to come behind `close`, which is not there yet"
        return "line " ("draw" in at ? at["draw"] : at["lottery"]) " has made the draw already"
    }
    if (verb == "call") return "line " at["call"] " is the `call` already"
    if ("assign" in at) {
        return verb == "assign" ? "line " at["assign"] " is the `assign` already" : \
            "`" verb "` has to come before the `assign` of line " at["assign"]
    }
    if (verb in at && (verb == "partition" || verb == "seal")) return "line " at[verb] " is the `" verb "` already"
    if (verb == "place") return "the clusters are drawn by the `partition` of line " at["partition"]
    if (verb == "partition") return "line " at["place"] " has placed a person already"
    return ""
}

function on_form(verb,    low, i, b) {
    low = tolower(verb)
    if (low != verb && (low == "review" || low in usage)) return "commands are written in small letters: `" low "`"
    if (low == "reviews") return "a review line begins with `review`"
    if (low == "withdraw") return on_withdraw()
    if (!(verb in usage)) {
        return "`" verb "` is no command; there are call, applicant, conflict, place, partition, pair, seal, assign, " \
            "close, draw and lottery, and review lines begin with `review`"
    }
    if (verb != "seal" || words != 2) {
        return "it has " words - 1 " words behind `" verb "`, and is written `" usage[verb] "`"
    }
    for (i = 0; i < width[2]; i++) {
        b = byte[from[2] + i]
        if (!is_digit(b) && (b < 97 || b > 102)) {
            return "the digest has " shown(b) " as byte " i + 1 ", and digits are 0-9 and a-f"
        }
    }
    return "the digest has " width[2] " digits, and 64 are wanted"
}

function on_withdraw() {
    return "who withdraws behind the draw stands in a file of its own: bin/house reserve WITHDRAWALS < FILE"
}

function on_name(verb) {
    if (verb == "partition" || verb == "lottery") return off_seed(2)
    return first_of(off_name(2), words > 2 && verb != "place" ? off_name(3) : "")
}

function on_range(verb) {
    if (verb == "call") {
        return first_of(off_number(word[2], 1, 1000, "SEATS"), off_number(word[3], 2, 30, "CLUSTERS"), \
            off_number(word[4], 1, 20, "REVIEWS"))
    }
    if (verb == "place") return off_number(word[3], 1, clusters, "the cluster")
    if (verb == "draw") return off_number(word[2], 0, persons * 1000000 - 1, "the draw")
    return ""
}

function on_known(verb) {
    if (verb == "applicant") return "line " applied_at[word[2]] " is the applicant `" word[2] "` already"
    if (verb == "place") return "line " placed_at[word[2]] " has put `" word[2] "` into cluster " cluster_of[word[2]]
    return "line " pair_at[word[2], word[3]] " is this pair already"
}

function on_unknown(verb) {
    if (!(word[2] in own)) {
        if (word[2] in person_of) {
            return "`" word[2] "` is an applicant, and here a person is named: its person is `" person_of[word[2]] "`"
        }
        return "no `applicant` line before this one names a person `" word[2] "`"
    }
    if (word[3] in own) {
        return "`" word[3] "` is a person, and here an applicant is named: its applicants are" names[word[3]]
    }
    return "no `applicant` line before this one names an applicant `" word[3] "`"
}

function on_too_many(    person) {
    if (count >= 1000) return "there are 1,000 applicants already"
    person = words > 2 ? word[3] : word[2]
    return "`" person "` has five applicants already:" names[person]
}

function on_unplaced(    i, lacking, listed) {
    for (i = 1; i <= persons; i++) {
        if (!(people[i] in cluster_of) && ++lacking <= 5) listed = listed " " people[i]
    }
    return "these persons are in no cluster:" listed (lacking > 5 ? " and " lacking - 5 " more" : "")
}

# The first pair that may not be; where all may be, the first person or applicant that stands in too few or too many.
function on_invalid(    i, line, r, p, wanted, reviewed, gives) {
    if (drawn != "") while ((getline line < drawn) > 0) { split(line, r_c, " "); cluster_of[r_c[1]] = r_c[2] }
    for (i = 1; i <= pairs; i++) {
        r = reviewer[i]
        p = proposal[i]
        gives[r]++
        reviewed[p]++
        if ((r, p) in barred) {
            return "`pair " r " " p "` of line " pair_line[i] " is barred by the conflict of line " barred[r, p]
        }
        if (r in cluster_of && cluster_of[r] == cluster_of[person_of[p]]) {
            return "`pair " r " " p "` of line " pair_line[i] " lies within cluster " cluster_of[r]
        }
    }
    for (i = 1; i <= persons; i++) {
        r = people[i]
        wanted = reviews * own[r]
        if (gives[r] + 0 != wanted) {
            return "`" r "` stands in " gives[r] + 0 " pairs as a reviewer, and has to in " wanted
        }
    }
    for (i = 1; i <= count; i++) {
        p = applicants[i]
        if (reviewed[p] + 0 != reviews + 0) {
            return "`" p "` is reviewed in " reviewed[p] + 0 " pairs, and has to be in " reviews
        }
    }
    return ""
}

function on_seal(verb) {
    if (verb == "draw") return "the seal of line " at["seal"] " wants a `lottery` with the seed that it is of"
    return "the seal of line " at["seal"] " is not that of this seed: see printf 'seal:%s' " word[2] " | sha256sum"
}

function on_unfinished() {
    if (!("assign" in at)) return "it ends before `assign`, `close` and a `draw` or `lottery`"
    if (!("close" in at)) return "it ends before `close` and a `draw` or `lottery`"
    return "it ends before a `draw` or `lottery`"
}

function answer() {
    if (reason == "no-call" && number <= last && tolower(word[1]) == "withdraw") return on_withdraw()
    if (reason == "no-call") return number > last ? "no line is a command; the first has to be `" usage["call"] "`" : \
        "the first command has to be `" usage["call"] "`"
    if (reason == "order") return on_order(word[1])
    if (reason == "form") return on_form(word[1])
    if (reason == "name") return on_name(word[1])
    if (reason == "range") return on_range(word[1])
    if (reason == "known") return on_known(word[1])
    if (reason == "unknown") return on_unknown(word[1])
    if (reason == "too-many") return on_too_many()
    if (reason == "seal") return on_seal(word[1])
    if (reason == "few") return "no `applicant` line stands before it"
    if (reason == "unplaced") return on_unplaced()
    if (reason == "invalid") return on_invalid()
    if (reason == "unfinished") return on_unfinished()
    return ""
}

BEGIN {
    usage["call"] = "call SEATS CLUSTERS REVIEWS"
    usage["applicant"] = "applicant NAME [PERSON]"
    usage["conflict"] = "conflict PERSON APPLICANT"
    usage["place"] = "place PERSON CLUSTER"
    usage["partition"] = "partition SEED"
    usage["pair"] = "pair PERSON APPLICANT"
    usage["seal"] = "seal DIGEST"
    usage["assign"] = "assign"
    usage["close"] = "close"
    usage["draw"] = "draw NUMBER"
    usage["lottery"] = "lottery SEED"
}

{
    sub(/\001$/, "")
    last = NR
    if (NR < number && NF > 0 && $1 !~ /^#/) take()
    if (NR == number) {
        words = NF
        for (i = 1; i <= NF; i++) word[i] = $i
    }
    if (NR >= number) exit
}

END {
    find_words()
    said = answer()
    if (said != "") print said
}
