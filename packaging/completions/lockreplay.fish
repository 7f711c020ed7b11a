# Completion of lockreplay's command line for fish.

set -l complete complete -c lockreplay
set -l commands replay batch help
set -l none "not __fish_seen_subcommand_from $commands"
set -l help '__fish_seen_subcommand_from help'
set -l batch "__fish_seen_subcommand_from batch; and not $help"
# --workers is given once, and its number comes after it
set -l workers 'not __fish_contains_opt workers; or test (commandline -opc)[-1] = --workers'

$complete -f
$complete -n $none -a replay -d 'Replay the schedule on standard input and write its report'
$complete -n $none -a batch -d 'Replay the schedule of each file and write the reports in order'
$complete -n $none -a help -d 'Print help'
$complete -n "not $help" -s h -l help -d 'Print help'
$complete -n "$batch; and begin; $workers; end" -l workers -x -a '(seq 8)' \
    -d 'How many workers share the files'
$complete -n $batch -F
$complete -n $help -a "$commands"
