# Completion of pipegraph-pictures for bash.
_pipegraph_pictures_files() {
    compopt -o filenames 2>/dev/null
    mapfile -t COMPREPLY < <(compgen -f -X "!*$1" -- "$2"; compgen -d -- "$2")
}

_pipegraph_pictures() {
    local word=${COMP_WORDS[COMP_CWORD]}
    COMPREPLY=()
    case $COMP_CWORD in
    [2-9]) [[ $word == -* ]] && case ${COMP_WORDS[1]} in
        graph) mapfile -t COMPREPLY < <(compgen -W "--partial" -- "$word"); return ;;
        timeline) mapfile -t COMPREPLY < <(compgen -W "--perfetto" -- "$word"); return ;;
        wave) mapfile -t COMPREPLY < <(compgen -W "--db" -- "$word"); return ;;
        esac ;;&
    1) mapfile -t COMPREPLY < <(compgen -W "graph timeline wave" -- "$word") ;;
    2)
        case ${COMP_WORDS[1]} in
        wave) _pipegraph_pictures_files .wav "$word" ;;
        *) _pipegraph_pictures_files .graph "$word" ;;
        esac
        ;;
    3) [[ ${COMP_WORDS[1]} == wave ]] || _pipegraph_pictures_files "" "$word" ;;
    4) [[ ${COMP_WORDS[1]} == graph ]] && _pipegraph_pictures_files "" "$word" ;;
    esac
}

complete -F _pipegraph_pictures pipegraph-pictures
