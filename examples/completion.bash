# Completion of markov_desk for bash: commands, kinds, what is exported, options, and files.

_markov_desk() {
    local word=${COMP_WORDS[COMP_CWORD]} before=${COMP_WORDS[COMP_CWORD - 1]}
    local commands="moves reach check generate dataset model basis import analyse report list export remove"
    local choices=""
    case $before in
    --order) choices="lex grevlex" ;;
    export) choices="dataset matrix moves certificate rules" ;;
    remove) choices="dataset model basis analysis" ;;
    esac
    if [ "$COMP_CWORD" = 1 ]; then
        choices=$commands
    elif [ -z "$choices" ] && [[ $word == -* ]]; then
        case ${COMP_WORDS[1]} in
        reach | import) choices="--limit" ;;
        analyse) choices="--limit --workers" ;;
        generate) choices="--workers" ;;
        model) choices="--matrix" ;;
        basis) choices="--order --pairs" ;;
        esac
    fi
    if [ -n "$choices" ]; then
        mapfile -t COMPREPLY < <(compgen -W "$choices" -- "$word")
    else
        mapfile -t COMPREPLY < <(compgen -f -- "$word")
    fi
}

complete -F _markov_desk markov_desk
