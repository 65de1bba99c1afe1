# bash completion for geocom-to-sqlite(1), geocom-to-postgres(1), geocom-to-mqtt(1), geocom-plot(1), geocom-reduce(1), geocom-alarm(1),
# geocom-alive(1), geocom-page(1), geocom-bad-line(1) and geocom-teach(1)

_geocom_tools() {
    local cur prev words cword
    _init_completion || return
    local given='--as --once --rest --help'
    case ${1##*/} in
    geocom-to-sqlite) given="--files $given" ;;
    geocom-to-postgres) given="--files $given" ;;
    geocom-to-mqtt) given="--files --host --port --user --password-file $given" ;;
    geocom-reduce) given="--append --gama --free $given" ;;
    geocom-alarm) given="--run --repeat --apart --patience $given" ;;
    geocom-alive) given='--within --measured --except --notify --help' ;;
    geocom-page) given='--rows --files --reduced --limits --days --within --except --every --once --at --help' ;;
    geocom-plot) given='--help' ;;
    geocom-bad-line) given='--line --seed --connections --log --far-log --decided --drill --deadline --help' ;;
    geocom-teach) given='--unit --near --within --search --sets --one-face --deadline --geocom --help' ;;
    esac
    case $prev in
    --unit)
        mapfile -t COMPREPLY < <(compgen -W 'gon degree' -- "$cur")
        return
        ;;
    --append | --password-file | --line | --log | --far-log | --decided | --drill | --geocom)
        _filedir
        return
        ;;
    --rows | --reduced | --limits)
        _filedir -d
        return
        ;;
    --host)
        _known_hosts_real -- "$cur"
        return
        ;;
    --as | --rest | --within | --measured | --except | --port | --user | --run | --apart | --patience | --seed | --connections | --deadline | --days | --every | --files | --at | --near | --search | --sets) return ;;
    esac
    case $cur in
    -*) mapfile -t COMPREPLY < <(compgen -W "$given" -- "$cur") ;;
    *) _filedir ;;
    esac
} && complete -F _geocom_tools geocom-to-sqlite geocom-to-postgres geocom-to-mqtt geocom-plot geocom-reduce geocom-alarm geocom-alive geocom-page geocom-bad-line geocom-teach
