# Completion of specparse's words in bash: `. docs/completion.bash`, or a copy of it among bash's completions.
_specparse() {
    local word=${COMP_WORDS[COMP_CWORD]} before=${COMP_WORDS[COMP_CWORD - 1]}
    COMPREPLY=()
    if [ "$COMP_CWORD" = 1 ]; then
        mapfile -t COMPREPLY < <(compgen -W "page batch make" -- "$word")
        return
    fi
    if [ "${COMP_WORDS[1]}" = batch ]; then
        mapfile -t COMPREPLY < <(compgen -f -- "$word")
        return
    fi
    [ "${COMP_WORDS[1]}" = page ] || return
    case $before in
    --piece) mapfile -t COMPREPLY < <(compgen -W "1 4096 16384 65536" -- "$word") ;;
    --preload) mapfile -t COMPREPLY < <(compgen -W "0 2 4 8" -- "$word") ;;
    --ahead) mapfile -t COMPREPLY < <(compgen -W "1 2 8 64" -- "$word") ;;
    --watch) mapfile -t COMPREPLY < <(compgen -W "0 1 2 4 8" -- "$word") ;;
    *)
        case $word in
        -*) mapfile -t COMPREPLY < <(compgen -W "--piece --ahead --preload --dump --watch" -- "$word") ;;
        *) mapfile -t COMPREPLY < <(compgen -f -- "$word") ;;
        esac
        ;;
    esac
}
complete -o filenames -F _specparse specparse ./specparse
