# Completion for bqctl in fish.

# Prints the tubes of the server that the line names, or of the one that bqctl takes without that.
function __bqctl_tubes
    set -l server (string match -r -- '--server[ =]\S+' (commandline -c) | string split -m 1 -r ' ' | string split -m 1 '=')
    bqctl tubes --timeout 1 $server 2>/dev/null | string match -r '^\S+' | tail -n +2
end

set -l commands stats tubes peek put kick delete pause unpause clear move dump load
set -l of_tube stats peek put kick pause unpause clear move dump
set -l sweeps clear move dump

complete -c bqctl -f
complete -c bqctl -l server -x -a '(__fish_print_hostnames)' -d 'bqd or beanstalkd'
complete -c bqctl -l json -d 'Write the result as one line of JSON'
complete -c bqctl -l timeout -x -d 'Seconds that an answer may take'
complete -c bqctl -s h -l help -d 'Print the options'
complete -c bqctl -n "not __fish_seen_subcommand_from $commands" -l version -d 'Print the version'

set -l what "not __fish_seen_subcommand_from $commands"
complete -c bqctl -n $what -a stats -d 'Show statistics'
complete -c bqctl -n $what -a tubes -d 'List the tubes'
complete -c bqctl -n $what -a peek -d 'Show jobs without taking them'
complete -c bqctl -n $what -a put -d 'Put a job'
complete -c bqctl -n $what -a kick -d 'Make buried or delayed jobs ready'
complete -c bqctl -n $what -a delete -d 'Delete jobs by their ids'
complete -c bqctl -n $what -a pause -d 'Pause a tube'
complete -c bqctl -n $what -a unpause -d 'End a pause'
complete -c bqctl -n $what -a clear -d 'Delete the jobs of a tube'
complete -c bqctl -n $what -a move -d 'Move jobs to another server or tube'
complete -c bqctl -n $what -a dump -d 'Move jobs to standard output'
complete -c bqctl -n $what -a load -d 'Put the jobs of a dump'

complete -c bqctl -n "__fish_seen_subcommand_from $of_tube" -a '(__bqctl_tubes)' -d Tube
complete -c bqctl -n '__fish_seen_subcommand_from peek' -a 'ready delayed buried' -d State
complete -c bqctl -n '__fish_seen_subcommand_from peek' -l raw -d 'Write the body alone'
complete -c bqctl -n '__fish_seen_subcommand_from stats peek kick' -l id -x -d 'The job with this id'
complete -c bqctl -n '__fish_seen_subcommand_from put' -l priority -x
complete -c bqctl -n '__fish_seen_subcommand_from put' -l delay -x
complete -c bqctl -n '__fish_seen_subcommand_from put' -l ttr -x
complete -c bqctl -n '__fish_seen_subcommand_from put load' -F
complete -c bqctl -n '__fish_seen_subcommand_from kick dump' -l all -d 'All of them'
complete -c bqctl -n "__fish_seen_subcommand_from $sweeps" -l state -x -a 'ready delayed buried ready,delayed delayed,buried'
complete -c bqctl -n "__fish_seen_subcommand_from $sweeps" -l limit -x -d 'At most this many jobs'
complete -c bqctl -n "__fish_seen_subcommand_from $sweeps" -l dry-run -d 'Change nothing'
complete -c bqctl -n '__fish_seen_subcommand_from clear' -l yes -d 'Do not ask'
complete -c bqctl -n '__fish_seen_subcommand_from move' -l to -x -a '(__fish_print_hostnames)'
complete -c bqctl -n '__fish_seen_subcommand_from move load' -l skip-refused -d 'Leave out jobs that are too large'
complete -c bqctl -n '__fish_seen_subcommand_from load' -l from -x -d 'The first line'
