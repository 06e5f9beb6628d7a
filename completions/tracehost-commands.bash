# Completion of tracehost-run, tracehost-corpus, tracehost-view and tracehost-perfetto for bash, from what their own --help
# lists. Source this file, or link each command's name to it in ~/.local/share/bash-completion/completions. tracehost-cc
# takes the words of a compiler: there are files and the compiler's options.

# The options at the beginning of a line of help; those within a description are another command's.
_tracehost_options()
{
    sed -nE 's/^ {1,4}(-.*)/\1/p' | sed 's/   *.*//' | grep -oE -- '(^|[ ,])--?[a-zA-Z][a-z-]*' | tr -d ' ,' | sort -u
}

_tracehost_command()
{
    local word=${COMP_WORDS[COMP_CWORD]} option=${COMP_WORDS[COMP_CWORD - 1]} help choices
    COMPREPLY=()
    [[ $option != = ]] || option=${COMP_WORDS[COMP_CWORD - 2]}
    [[ $word != = ]] || word=''
    help=$("$1" --help 2>/dev/null) || help=''
    if [[ $word == -* ]]; then
        mapfile -t COMPREPLY < <(compgen -W "$(_tracehost_options <<<"$help")" -- "$word")
        return
    fi
    # an option with choices is shown as --option {one,other}
    choices=$(grep -oE -- "$option[ =]\{[^}]*\}" <<<"$help" | head -n 1)
    if [[ $option == --* && $choices == *{* ]]; then
        choices=${choices#*\{}
        choices=${choices%\}}
        mapfile -t COMPREPLY < <(compgen -W "${choices//,/ }" -- "$word")
        return
    fi
    compopt -o filenames 2>/dev/null
    mapfile -t COMPREPLY < <(compgen -f -- "$word")
}

complete -F _tracehost_command tracehost-cc tracehost-run tracehost-corpus tracehost-view tracehost-perfetto
