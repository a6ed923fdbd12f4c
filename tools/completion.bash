# Completion of dsc, dsc-listen, dsc-json, dsc-report and dsc-bench for bash.

_dsc() {
    local word=${COMP_WORDS[COMP_CWORD]}
    local before=${COMP_WORDS[COMP_CWORD - 1]}
    local words=
    if [ "$COMP_CWORD" = 1 ]; then
        words="join evidence watch capture encode sentences book replay exchange make"
    else
        case $before in
        --workers) words="1 2 4 8 16 32 64" ;;
        --dots) words="20 200" ;;
        join | evidence | watch | replay) words="--workers" ;;
        encode) words="--dots" ;;
        make) words="7 1000" ;;
        esac
    fi
    mapfile -t COMPREPLY < <(compgen -W "$words" -- "$word")
}

_dsc_listen() {
    local word=${COMP_WORDS[COMP_CWORD]}
    case ${COMP_WORDS[COMP_CWORD - 1]} in
    --baud) mapfile -t COMPREPLY < <(compgen -W "100 1200" -- "$word") ;;
    --dsc) mapfile -t COMPREPLY < <(compgen -f -- "$word") ;;
    *) mapfile -t COMPREPLY < <(compgen -W "--baud --tick --apart --forget --invert --json --health --dsc --help" -- "$word") ;;
    esac
}

_dsc_bench() {
    local word=${COMP_WORDS[COMP_CWORD]}
    local before=${COMP_WORDS[COMP_CWORD - 1]}
    local words=
    if [ "$COMP_CWORD" = 1 ]; then
        words="make raw judge --help"
    elif [ "$before" = --of ]; then
        words="elements mf vhf"
    elif [ "$before" = --dots ]; then
        words="20 200"
    else
        case ${COMP_WORDS[1]}$word in
        make-*) words="--dsc --help" ;;
        raw-*) words="--dots --help" ;;
        judge-*) words="--json --of --help" ;;
        *)
            mapfile -t COMPREPLY < <(compgen -f -- "$word")
            return
            ;;
        esac
    fi
    mapfile -t COMPREPLY < <(compgen -W "$words" -- "$word")
}

complete -F _dsc dsc
complete -F _dsc_listen dsc-listen
complete -f dsc-json
complete -f dsc-report
complete -F _dsc_bench dsc-bench
