# Completion of lockreplay's command line for bash, by the package bash-completion.

_lockreplay() {
    local cur prev words cword split
    _init_completion -s || return
    if [[ $prev == --workers ]]; then
        COMPREPLY=($(compgen -W '{1..8}' -- "$cur"))
        return
    fi
    case $cword,${words[1]} in
    1,*) COMPREPLY=($(compgen -W 'replay batch help --help -h' -- "$cur")) ;;
    *,replay) COMPREPLY=($(compgen -W '--help -h' -- "$cur")) ;;
    2,help) COMPREPLY=($(compgen -W 'replay batch help' -- "$cur")) ;;
    *,batch) _lockreplay_batch ;;
    esac
}

# --workers is given once; what is no option is a file.
_lockreplay_batch() {
    if [[ $cur != -* ]]; then
        _filedir
    elif [[ " ${words[*]} " == *' --workers'[\ =]* && $cur != --workers ]]; then
        COMPREPLY=($(compgen -W '--help -h' -- "$cur"))
    else
        COMPREPLY=($(compgen -W '--workers --help -h' -- "$cur"))
    fi
}

complete -F _lockreplay lockreplay
