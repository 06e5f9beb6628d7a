# Completion of tracehost for bash: source this file, or put it into ~/.local/share/bash-completion/completions/tracehost.

_tracehost()
{
    local word=${COMP_WORDS[COMP_CWORD]} option=${COMP_WORDS[COMP_CWORD - 1]} front='' equals=''
    COMPREPLY=()
    # an option with `=` and a value is one word, or three words where `=` is in COMP_WORDBREAKS
    if [[ $word == --*=* ]]; then
        option=${word%%=*} front=${word%%=*}= word=${word#*=} equals='='
    elif [[ $word == = ]]; then
        word='' equals='='
    elif [[ $option == = ]]; then
        option=${COMP_WORDS[COMP_CWORD - 2]} equals='='
    fi
    case $option$equals in
    --user | --user=)
        mapfile -t COMPREPLY < <(compgen -P "$front" -W "$(printf '%d ' {1001..1064})" -- "$word")
        return
        ;;
    --kill-on-debugger-exit | --kill-on-debugger-exit=)
        mapfile -t COMPREPLY < <(compgen -P "$front" -W "0 1" -- "$word")
        return
        ;;
    --json=)
        mapfile -t COMPREPLY < <(compgen -P "$front" -W "replies trace trace+rows" -- "$word")
        return
        ;;
    --explain=)
        mapfile -t COMPREPLY < <(compgen -P "$front" -W "auto always never" -- "$word")
        return
        ;;
    --expect | --expect= | --expect-list | --expect-list=) ;;
    *)
        if [[ $word == -* ]]; then
            local given=" ${COMP_WORDS[*]:1:COMP_CWORD - 1} "
            local scenario="--user --threads --expect --bless --expect-list" lines="--lines --kill-on-debugger-exit"
            local all="--json --explain --help -h --version -V"
            [[ $given =~ \ --(lines|kill-on-debugger-exit)\  ]] && scenario=''
            [[ $given =~ \ --(user|threads|expect|bless|expect-list)\  ]] && lines=''
            mapfile -t COMPREPLY < <(compgen -W "$scenario $lines $all" -- "$word")
            return
        fi
        ;;
    esac
    compopt -o filenames 2>/dev/null
    mapfile -t COMPREPLY < <(compgen -P "$front" -f -- "$word")
}

complete -F _tracehost tracehost
