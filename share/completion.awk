# Makes the completion of a program for a shell, from a line for each form of its words: the form, a tab, and what it
# does. Variables: program, shell, and topics, what may stand behind the word `help`.
BEGIN { FS = "\t" }
{
    count = split($1, form, " ")
    word = form[1]
    if (!(word in does)) words[++many] = word
    if (!(word in does)) does[word] = $2
    for (i = 2; i <= count && form[i] != "<"; i++)
        if (form[i] ~ /^(FILE|AUDIT|CALL|REGISTER|OLD|NEW|DESK)$/) files[word]++
    has_topics = has_topics || $1 == "help [WORD]"
}

function list(    i, out) {
    for (i = 1; i <= many; i++) out = out (i == 1 ? "" : " ") words[i]
    return out
}

# The words behind which names of files stand, with `with` between them.
function with_files(between,    i, out) {
    for (i = 1; i <= many; i++) if (words[i] in files) out = out (out == "" ? "" : between) words[i]
    return out
}

# A text between single quotes.
function quoted(text) {
    gsub(/'/, "'\\''", text)
    return "'" text "'"
}

function bash() {
    print "# The words of `" program "` for bash. Made by share/make-pages from the text of help."
    print "_" program "() {"
    print "    local now=${COMP_WORDS[COMP_CWORD]}"
    print "    COMPREPLY=()"
    print "    case $COMP_CWORD:${COMP_WORDS[1]} in"
    print "        1:*) COMPREPLY=($(compgen -W '" list() "' -- \"$now\")) ;;"
    if (has_topics) print "        2:help) COMPREPLY=($(compgen -W '" topics "' -- \"$now\")) ;;"
    for (i = 1; i <= many; i++)
        for (k = 1; k <= files[words[i]]; k++)
            print "        " k + 1 ":" words[i] ") mapfile -t COMPREPLY < <(compgen -f -- \"$now\") ;;"
    print "    esac"
    print "}"
    print "complete -o filenames -F _" program " " program " bin/" program
}

function zsh() {
    print "#compdef " program
    print "# The words of `" program "` for zsh. Made by share/make-pages from the text of help."
    print "local -a forms"
    print "forms=("
    for (i = 1; i <= many; i++) print "    " quoted(words[i] ":" does[words[i]])
    print ")"
    print "case $CURRENT:$words[2] in"
    print "    2:*) _describe word forms ;;"
    if (has_topics) print "    3:help) compadd " topics " ;;"
    for (i = 1; i <= many; i++)
        for (k = 1; k <= files[words[i]]; k++) print "    " k + 2 ":" words[i] ") _files ;;"
    print "esac"
}

function fish() {
    print "# The words of `" program "` for fish. Made by share/make-pages from the text of help."
    print "complete -c " program " -f"
    for (i = 1; i <= many; i++)
        print "complete -c " program " -n __fish_use_subcommand -a " words[i] " -d " quoted(does[words[i]])
    if (has_topics) print "complete -c " program " -n '__fish_seen_subcommand_from help' -a '" topics "'"
    if (with_files(" ") != "")
        print "complete -c " program " -n '__fish_seen_subcommand_from " with_files(" ") "' -F"
}

END {
    if (shell == "bash") bash()
    else if (shell == "fish") fish()
    else zsh()
}
