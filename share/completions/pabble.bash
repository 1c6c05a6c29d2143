# Completion of pabble for bash.
_pabble()
{
    local word=${COMP_WORDS[COMP_CWORD]} before=${COMP_WORDS[COMP_CWORD-1]} command=${COMP_WORDS[1]}
    COMPREPLY=()
    if [ "$COMP_CWORD" = 1 ]; then
        mapfile -t COMPREPLY < <(compgen -W 'check project gen run sim replay expand strips cost judge demo' -- "$word")
        return
    fi
    case $before in
    --mode)
        mapfile -t COMPREPLY < <(compgen -W 'eager waiting mixed' -- "$word")
        return
        ;;
    --n | --seed | --turns) return ;;
    esac
    [ "$command" = demo ] && return
    if [ "${word#-}" != "$word" ]; then
        case $command in
        run | sim) mapfile -t COMPREPLY < <(compgen -W '--n --seed --turns --mode --schedule' -- "$word") ;;
        replay | judge) mapfile -t COMPREPLY < <(compgen -W '--n' -- "$word") ;;
        esac
        return
    fi
    compopt -o filenames 2>/dev/null
    mapfile -t COMPREPLY < <(compgen -f -- "$word")
}
complete -F _pabble pabble
