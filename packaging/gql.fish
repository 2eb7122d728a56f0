# Completions of gql for fish.
set -l first 'not __fish_seen_subcommand_from query schema minify first'
set -l formats '__fish_seen_subcommand_from query schema first'
complete -c gql -f
complete -c gql -n $first -a query -d 'Format a query document'
complete -c gql -n $first -a schema -d 'Format a schema document'
complete -c gql -n $first -a minify -d 'Write the tokens with the fewest spaces'
complete -c gql -n $first -a first -d 'Format the first definition of a query document'
complete -c gql -n $formats -l indent -x -d 'Spaces for each level'
complete -c gql -n $formats -l multiline -d 'A line for each argument, list item and object field'
