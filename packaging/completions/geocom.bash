# bash completion for geocom(1)

_geocom() {
    local cur prev words cword
    _init_completion || return
    local command=${words[1]:-} word given=
    if [ "$cword" -eq 1 ]; then
        mapfile -t COMPREPLY < <(compgen -W 'exec check drill loop serve ask station rehearse --help --version' -- "$cur")
        return
    fi
    case $prev in
    --scene | --line | --log | --append | --until | --now)
        # `check --log` takes no file.
        if [ "$command" != check ]; then
            _filedir
            return
        fi
        ;;
    --width)
        mapfile -t COMPREPLY < <(compgen -W '1 2 3 4 5 6 7' -- "$cur")
        return
        ;;
    --unit)
        mapfile -t COMPREPLY < <(compgen -W 'gon degree' -- "$cur")
        return
        ;;
    --cycles)
        word=unlimited
        [ "$command" != rehearse ] || word=day
        mapfile -t COMPREPLY < <(compgen -W "$word" -- "$cur")
        return
        ;;
    --retries)
        mapfile -t COMPREPLY < <(compgen -W always -- "$cur")
        return
        ;;
    --stale)
        mapfile -t COMPREPLY < <(compgen -W never -- "$cur")
        return
        ;;
    --connections | --idle | --nights | --seed | --deadline | --every | --at | --settle | --log-bytes) return ;;
    esac
    case $command in
    exec | loop) given='--scene --help' ;;
    check) given='--log --help' ;;
    drill) given='--scene --totals --width --help' ;;
    serve) given='--any-address --connections --keep --idle --scene --help' ;;
    ask) given='--help' ;;
    station) given='--width --deadline --every --at --cycles --settle --retries --stale --until --now --csv --columns --json --append --fsync --unchained --silent --check --unit --log --log-bytes --help' ;;
    rehearse) given='--nights --every --cycles --scene --line --seed --width --deadline --settle --retries --stale --csv --columns --json --unchained --help' ;;
    *) return ;;
    esac
    # What can't be given behind what stands there.
    for word in "${words[@]:2}"; do
        case $word in
        --json) given=${given/--csv --columns /} ;;
        --csv | --columns) given=${given/--json /} ;;
        esac
    done
    case $command:$cur in
    *:-*) mapfile -t COMPREPLY < <(compgen -W "$given" -- "$cur") ;;
    serve:* | ask:* | station:*)
        # A place: the devices that are there.
        mapfile -t COMPREPLY < <(compgen -W "$(compgen -G '/dev/ttyUSB*') $(compgen -G '/dev/ttyACM*') $(compgen -G '/dev/ttyS*')" -- "$cur")
        [ "${#COMPREPLY[@]}" -ne 0 ] || _filedir
        ;;
    esac
} && complete -F _geocom geocom
