# Completion of pitshell, by tools/make_docs.py, for bash.
_pitshell() {
    local word=${COMP_WORDS[COMP_CWORD]} before=${COMP_WORDS[COMP_CWORD - 1]} options=""
    COMPREPLY=()
    if [ "$COMP_CWORD" -eq 1 ]; then
        mapfile -t COMPREPLY < <(compgen -W "solve shells check replay help --help --version" -- "$word")
        return
    fi
    case $before in
    --model | --prec | --fixed | --certificate | --journal | --stats | --blocks)
        compopt -o filenames 2> /dev/null
        mapfile -t COMPREPLY < <(compgen -f -- "$word")
        return
        ;;
    --mode)
        mapfile -t COMPREPLY < <(compgen -W "single parts shared" -- "$word")
        return
        ;;
    --pit)
        mapfile -t COMPREPLY < <(compgen -W "least greatest" -- "$word")
        return
        ;;
    --workers | --budget | --progress | --revenue | --cost | --factors) return ;;
    esac
    case ${COMP_WORDS[1]} in
    solve) options="--model --prec --fixed --mode --workers --budget --pit --certificate --journal --progress --stats --help" ;;
    shells) options="--blocks --prec --revenue --cost --factors --mode --workers --budget --pit --progress --stats --help" ;;
    check) options="--model --prec --fixed --certificate --help" ;;
    replay) options="--model --prec --fixed --journal --help" ;;
    help) options="solve shells check replay" ;;
    esac
    mapfile -t COMPREPLY < <(compgen -W "$options" -- "$word")
}
complete -F _pitshell pitshell
