# Completion of pitschedule, by tools/make_docs.py, for bash.
_pitschedule() {
    local word=${COMP_WORDS[COMP_CWORD]} before=${COMP_WORDS[COMP_CWORD - 1]} options=""
    COMPREPLY=()
    if [ "$COMP_CWORD" -eq 1 ]; then
        mapfile -t COMPREPLY < <(compgen -W "check bound help --help --version" -- "$word")
        return
    fi
    case $before in
    --problem | --prec | --schedule | --prices)
        compopt -o filenames 2> /dev/null
        mapfile -t COMPREPLY < <(compgen -f -- "$word")
        return
        ;;
    ) return ;;
    esac
    case ${COMP_WORDS[1]} in
    check) options="--problem --prec --schedule --prices --help" ;;
    bound) options="--problem --prec --prices --help" ;;
    help) options="check bound" ;;
    esac
    mapfile -t COMPREPLY < <(compgen -W "$options" -- "$word")
}
complete -F _pitschedule pitschedule
