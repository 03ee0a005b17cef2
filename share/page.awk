# Makes a manual page of the parts that share/make-pages gives: a line `@ HEADING` begins a part, `@@ HEADING` one whose
# lines stay as they are. Variables: name and title.

function escaped(text) {
    gsub(/\\/, "\\e", text)
    gsub(/-/, "\\-", text)
    gsub(/'/, "\\(aq", text)
    gsub(/\^/, "\\(ha", text)
    gsub(/~/, "\\(ti", text)
    return text
}

# A line as it stands.
function plain(text) {
    gsub(/bin\/house/, "house", text)
    gsub(/bin\/desk/, "desk", text)
    text = escaped(text)
    gsub(/`/, "\\(ga", text)
    return text ~ /^\./ ? "\\&" text : text
}

# A paragraph, in which code and what is stressed is bold.
function rich(text,    parts, count, i, out) {
    gsub(/bin\/house/, "house", text)
    gsub(/bin\/desk/, "desk", text)
    gsub(/\*\*/, "`", text)
    count = split(escaped(text), parts, "`")
    for (i = 1; i <= count; i++) out = out (i == 1 ? "" : i % 2 ? "\\fR" : "\\fB") parts[i]
    return out ~ /^\./ ? "\\&" out : out
}

function end_paragraph() {
    if (paragraph != "") print rich(paragraph)
    paragraph = ""
}

function end_code() {
    if (in_code) print ".fi\n.RE"
    in_code = 0
}

BEGIN {
    upper = toupper(name)
    gsub(/-/, "\\-", upper)
    print ".\\\" Made by share/make-pages from the texts of help."
    printf ".TH %s 1 \"\" house \"Peer review\"\n.SH NAME\n", upper
    printf "%s \\- %s\n", escaped(name), rich(tolower(substr(title, 1, 1)) substr(title, 2))
}

/^@/ {
    end_paragraph()
    end_code()
    if (stays) print ".fi"
    stays = $1 == "@@"
    heading = $0
    sub(/^@@? /, "", heading)
    print ".SH " heading
    if (stays) print ".nf"
    is_first = 1
    next
}
stays { print plain($0); next }
$0 == "" { end_paragraph(); waits = 1; is_first = 1; next }
/^    / {
    end_paragraph()
    if (!in_code) print ".RS 4\n.nf"
    in_code = 1
    print plain(substr($0, 5))
    next
}
{ end_code() }
# The first line on a form, an answer, a reason or a kind names it.
heading ~ /^(WORDS|ANSWERS|REASONS|KINDS)/ && is_first {
    print ".TP"
    print "\\fB" plain($0) "\\fR"
    is_first = waits = 0
    next
}
/^- / {
    end_paragraph()
    print ".IP \\(bu 2"
    paragraph = substr($0, 3)
    waits = 0
    next
}
{
    if (waits && paragraph == "") print ".PP"
    waits = 0
    sub(/^ +/, "")
    paragraph = paragraph (paragraph == "" ? "" : " ") $0
}
END {
    end_paragraph()
    end_code()
    if (stays) print ".fi"
}
