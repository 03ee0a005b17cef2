# The words of `house` for bash. Made by share/make-pages from the text of help.
_house() {
    local now=${COMP_WORDS[COMP_CWORD]}
    COMPREPLY=()
    case $COMP_CWORD:${COMP_WORDS[1]} in
        1:*) COMPREPLY=($(compgen -W 'run feasible pairs audit slip reserve check replay migrate join help version' -- "$now")) ;;
        2:help) COMPREPLY=($(compgen -W 'run feasible pairs audit slip reserve check replay migrate join help version reasons kinds status refused short too-long bad same differs migrated unlisted wrong withdraw final aside no-call order form name range known unknown too-many seal few unplaced invalid unfinished early late unassigned' -- "$now")) ;;
        2:run) mapfile -t COMPREPLY < <(compgen -f -- "$now") ;;
        3:run) mapfile -t COMPREPLY < <(compgen -f -- "$now") ;;
        2:audit) mapfile -t COMPREPLY < <(compgen -f -- "$now") ;;
        2:check) mapfile -t COMPREPLY < <(compgen -f -- "$now") ;;
        2:replay) mapfile -t COMPREPLY < <(compgen -f -- "$now") ;;
        2:migrate) mapfile -t COMPREPLY < <(compgen -f -- "$now") ;;
        3:migrate) mapfile -t COMPREPLY < <(compgen -f -- "$now") ;;
        2:join) mapfile -t COMPREPLY < <(compgen -f -- "$now") ;;
        3:join) mapfile -t COMPREPLY < <(compgen -f -- "$now") ;;
    esac
}
complete -o filenames -F _house house bin/house
