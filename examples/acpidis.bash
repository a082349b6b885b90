# Completion of acpidis for bash. ./install puts it under share/bash-completion/completions. The help of the command
# says which options there are, and what they take.

_acpidis() {
    local word=${COMP_WORDS[COMP_CWORD]} before=${COMP_WORDS[COMP_CWORD - 1]} command=${COMP_WORDS[0]}
    local form='^ +(-[A-Za-z], )?(--[a-z-]+)( <([A-Z]+)>)?( |$)' told='' line options='' value=''
    COMPREPLY=()
    if [[ $word == -* || $before == -* ]]; then
        if [[ $command == \~/* ]]; then command=$HOME/${command:2}; fi
        told=$("$command" --help 2>/dev/null </dev/null)
        told=${told#*$'\nOptions:\n'}
    fi
    while IFS= read -r line; do
        [[ $line =~ $form ]] || continue
        options+=" ${BASH_REMATCH[2]}"
        if [[ $before == "${BASH_REMATCH[2]}" ]]; then value=${BASH_REMATCH[4]}; fi
    done <<<"${told%%$'\n\n'*}"
    case $value in
    N) mapfile -t COMPREPLY < <(compgen -W '1 2 4 8 16 32 64' -- "$word") ;;
    FILE) compopt -o filenames && mapfile -t COMPREPLY < <(compgen -f -- "$word") ;;
    '')
        case $word in
        -*) mapfile -t COMPREPLY < <(compgen -W "$options" -- "$word") ;;
        *) compopt -o filenames && mapfile -t COMPREPLY < <(compgen -d -- "$word") ;;
        esac
        ;;
    esac
}
complete -F _acpidis acpidis
