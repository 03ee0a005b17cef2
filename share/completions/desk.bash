# The words of `desk` for bash. Made by share/make-pages from the text of help.
_desk() {
    local now=${COMP_WORDS[COMP_CWORD]}
    COMPREPLY=()
    case $COMP_CWORD:${COMP_WORDS[1]} in
        1:*) COMPREPLY=($(compgen -W 'intake show help version' -- "$now")) ;;
    esac
}
complete -o filenames -F _desk desk bin/desk
