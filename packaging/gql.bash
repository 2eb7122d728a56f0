# Completions of gql for bash.
_gql() {
    local word=${COMP_WORDS[COMP_CWORD]} before=${COMP_WORDS[COMP_CWORD - 1]}
    COMPREPLY=()
    if [[ $COMP_CWORD -eq 1 ]]; then
        COMPREPLY=($(compgen -W 'query schema minify first' -- "$word"))
    elif [[ ${COMP_WORDS[1]} != minify && $before != --indent ]]; then
        COMPREPLY=($(compgen -W '--indent --multiline' -- "$word"))
    fi
}
complete -F _gql gql
