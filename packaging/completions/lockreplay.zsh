#compdef lockreplay
# Completion of lockreplay's command line for zsh.

_lockreplay() {
    local context state state_descr line
    local -A opt_args
    _arguments -C \
        '(- *)'{-h,--help}'[print help]' \
        '1:command:((replay\:"replay the schedule on standard input and write its report"
                     batch\:"replay the schedule of each file and write the reports in order"
                     help\:"print help"))' \
        '*::argument:->argument'
    [[ $state == argument ]] || return
    case $line[1] in
    replay) _arguments '(- *)'{-h,--help}'[print help]' ;;
    batch) _arguments '(- *)'{-h,--help}'[print help]' \
        '--workers[how many workers share the files]:number:(1 2 3 4 5 6 7 8)' \
        '*:schedule:_files' ;;
    help) _arguments '1:command:(replay batch help)' ;;
    esac
}

_lockreplay "$@"
