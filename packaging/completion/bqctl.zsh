#compdef bqctl
# Completion for bqctl in zsh, as the file _bqctl in a folder of $fpath.

# Completes the tubes of the server that the line names, or of the one that bqctl takes without that.
_bqctl_tubes() {
    local tubes=(${${(f)"$(bqctl tubes --timeout 1 $server 2>/dev/null)"}[2,-1]%% *})
    compadd -a tubes
}

_bqctl_states() { _values -s , state ready delayed buried; }

_bqctl() {
    local context state line server=(${(M)words:#--server=*})
    ((${words[(I)--server]})) && server=(--server $words[${words[(I)--server]}+1])
    typeset -A opt_args
    local shared=(
        '--server=[bqd or beanstalkd]:address:_hosts' '--json[write the result as one line of JSON]'
        '--timeout=[how long an answer may take]:seconds:' '(- *)'{-h,--help}'[print the options]'
    )
    local sweep=('--state=[which jobs]:states:_bqctl_states' '--limit=[at most this many jobs]:number:' '--dry-run[change nothing]')
    local skip='--skip-refused[leave out jobs that are too large]' id='--id=[the job with this id]:id:' tube=':tube:_bqctl_tubes'
    _arguments -C $shared '(- *)--version[print the version]' ':command:->command' '*::word:->word' && return
    if [[ $state == command ]]; then
        local commands=(
            'stats:show statistics' 'tubes:list the tubes' 'peek:show jobs without taking them' 'put:put a job'
            'kick:make buried or delayed jobs ready' 'delete:delete jobs by their ids' 'pause:pause a tube' 'unpause:end a pause'
            'clear:delete the jobs of a tube' 'move:move jobs to another server or tube' 'dump:move jobs to standard output'
            'load:put the jobs of a dump'
        )
        _describe command commands
        return
    fi
    case $words[1] in
        stats) _arguments $shared $id $tube ;;
        tubes) _arguments $shared ;;
        peek) _arguments $shared $id '--raw[write the body alone]' $tube ':state:(ready delayed buried)' ;;
        put) _arguments $shared '--priority=:number:' '--delay=:seconds:' '--ttr=:seconds:' $tube ':file:_files' ;;
        kick) _arguments $shared $id '--all[all of them]' $tube ':number:' ;;
        delete) _arguments $shared '*:id:' ;;
        pause) _arguments $shared $tube ':seconds:' ;;
        unpause) _arguments $shared $tube ;;
        clear) _arguments $shared $sweep '--yes[do not ask]' $tube ;;
        move) _arguments $shared $sweep $skip '--to=[the target]:address:_hosts' $tube ;;
        dump) _arguments $shared $sweep '--all[all tubes]' '*:tube:_bqctl_tubes' ;;
        load) _arguments $shared $skip '--from=[the first line]:number:' ':file:_files' ;;
    esac
}

_bqctl "$@"
