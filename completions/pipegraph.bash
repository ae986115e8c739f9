# Completion of pipegraph for bash.

# Files whose names end so, and folders.
_pipegraph_files() {
    compopt -o filenames 2>/dev/null
    mapfile -t COMPREPLY < <(compgen -f -X "!*$1" -- "$2"; compgen -d -- "$2")
}

_pipegraph_words() {
    mapfile -t COMPREPLY < <(compgen -W "$1" -- "$2")
}

# The options of run that do not stand in the line yet.
_pipegraph_options() {
    local options="" option
    for option in --loops --ticks --trace --steal; do
        [[ " ${COMP_WORDS[*]:0:COMP_CWORD} " == *" $option "* ]] || options+="$option "
    done
    _pipegraph_words "$options" "$1"
}

_pipegraph() {
    local word=${COMP_WORDS[COMP_CWORD]} before=${COMP_WORDS[COMP_CWORD - 1]}
    COMPREPLY=()
    if ((COMP_CWORD == 1)); then
        _pipegraph_words "run dump filter automate check soak groups --help" "$word"
        return
    fi
    case ${COMP_WORDS[1]} in
    run)
        if ((COMP_CWORD == 2)); then
            _pipegraph_files .graph "$word"
        elif [[ $before == --loops ]]; then
            _pipegraph_words "0 1 2 3 4 5 6 7 8 9 10 11 12 13 14 15 16" "$word"
        elif [[ $before != --ticks ]]; then
            _pipegraph_options "$word"
        fi ;;
    groups) ((COMP_CWORD > 2)) || _pipegraph_files .graph "$word" ;;
    dump) ((COMP_CWORD > 2)) || _pipegraph_files .pod "$word" ;;
    filter) ((COMP_CWORD > 4)) || _pipegraph_files .pod "$word" ;;
    automate)
        case $COMP_CWORD in
        2 | 4) _pipegraph_files .wav "$word" ;;
        3) _pipegraph_files .pod "$word" ;;
        esac ;;
    check)
        case $COMP_CWORD in
        2) _pipegraph_files .graph "$word" ;;
        3) _pipegraph_files "" "$word" ;;
        esac ;;
    esac
}

complete -F _pipegraph pipegraph
