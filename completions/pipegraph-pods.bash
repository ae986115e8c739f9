# Completion of pipegraph-pods for bash.
_pipegraph_pods_files() {
    compopt -o filenames 2>/dev/null
    mapfile -t COMPREPLY < <(compgen -f -- "$1")
}

_pipegraph_pods_words() {
    mapfile -t COMPREPLY < <(compgen -W "$1" -- "$2")
}

_pipegraph_pods() {
    local word=${COMP_WORDS[COMP_CWORD]}
    COMPREPLY=()
    if ((COMP_CWORD == 1)); then
        _pipegraph_pods_words "gains pod format --help" "$word"
        return
    fi
    case ${COMP_WORDS[1]} in
    gains | pod) ((COMP_CWORD > 3)) || _pipegraph_pods_files "$word" ;;
    format)
        case $COMP_CWORD in
        2) _pipegraph_pods_files "$word" ;;
        3) _pipegraph_pods_words "rate" "$word" ;;
        5) _pipegraph_pods_words "channels" "$word" ;;
        7) _pipegraph_pods_words "mandatory" "$word" ;;
        8) _pipegraph_pods_words "rate channels" "$word" ;;
        esac ;;
    esac
}

complete -F _pipegraph_pods pipegraph-pods
