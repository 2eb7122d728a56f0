# Completions of gqlfmt for bash.
_gqlfmt() {
    local word=${COMP_WORDS[COMP_CWORD]} before=${COMP_WORDS[COMP_CWORD - 1]} name
    COMPREPLY=()
    case $before in
    --language) COMPREPLY=($(compgen -W 'query schema' -- "$word")) ;;
    --message-format) COMPREPLY=($(compgen -W 'long short json' -- "$word")) ;;
    --indent | --width | --max-errors) ;;
    *)
        if [[ $word == -* ]]; then
            local options='--check --diff --write --indent --width --language --stdin-path --message-format --max-errors --help --version'
            COMPREPLY=($(compgen -W "$options" -- "$word"))
        else
            compopt -o filenames 2> /dev/null
            while IFS= read -r name; do
                if [[ -d $name || $before == --stdin-path || $name =~ \.(graphqls?|gql)$ ]]; then
                    COMPREPLY+=("$name")
                fi
            done < <(compgen -f -- "$word")
        fi
        ;;
    esac
}
complete -o default -F _gqlfmt gqlfmt
