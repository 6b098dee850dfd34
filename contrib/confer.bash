# Completion of confer for bash: source this file, or put it into the folder of completions as `confer`.
_confer() {
    local current=${COMP_WORDS[COMP_CWORD]} previous=${COMP_WORDS[COMP_CWORD-1]} subcommand=${COMP_WORDS[1]} words=
    if [ "$COMP_CWORD" -eq 1 ]; then
        words='expand play run audit help --help'
    else
        case $subcommand:$previous in
            run:--link) words='channel udp tcp' ;;
            run:--size | run:--window | run:--questions | run:--turns | expand:--group | expand:--size) ;;
            expand:*) words='--group --size --help' ;;
            run:*) words='--size --window --questions --turns --link --trace --help' ;;
            play:* | audit:*) words='--help' ;;
            help:*) words='expand play run audit' ;;
        esac
    fi
    mapfile -t COMPREPLY < <(compgen -W "$words" -- "$current")
}
complete -F _confer confer
