# Reads the two columns of the forms of words in a text of help: a form behind four spaces, and what it does from
# column 34 on, or on the lines below. Gives a line for each form, without its program: the form, a tab, what it does.
function put() {
    if (form != "") print form "\t" does
    form = ""
}
/^Exit status/ { exit }
/^    bin\/[a-z]+ / {
    put()
    has_both = substr($0, 33, 1) == " " && substr($0, 34, 1) != ""
    form = has_both ? substr($0, 5, 29) : substr($0, 5)
    does = has_both ? substr($0, 34) : ""
    sub(/^bin\/[a-z]+ /, "", form)
    sub(/ +$/, "", form)
    next
}
/^          / && form != "" {
    sub(/^ +/, "")
    does = does (does == "" ? "" : " ") $0
    next
}
{ put() }
END { put() }
