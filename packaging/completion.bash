# Completion of dnschain's words for bash, without bash-completion too: sourced, or found by its name.
_dnschain() {
    local word=${COMP_WORDS[COMP_CWORD]} before=${COMP_WORDS[COMP_CWORD - 1]} options="--conf --port --workers --queries" given option left=
    COMPREPLY=()
    # Bash parts words at `=` too.
    if [ "$word" = "=" ]; then
        word=
    elif [ "$before" = "=" ] && [ "$COMP_CWORD" -gt 1 ]; then
        before=${COMP_WORDS[COMP_CWORD - 2]}
    fi
    if [ "$COMP_CWORD" -eq 1 ]; then
        mapfile -t COMPREPLY < <(compgen -W "load serve" -- "$word")
        return
    fi
    if [ "${COMP_WORDS[1]}" != serve ]; then
        return
    fi
    case $before in
    --conf)
        mapfile -t COMPREPLY < <(compgen -f -- "$word")
        compopt -o filenames 2>/dev/null
        ;;
    --workers)
        mapfile -t COMPREPLY < <(compgen -W "1 2 3 4 5 6 7 8 9 10 11 12 13 14 15 16" -- "$word")
        ;;
    --port | --queries) ;;
    *)
        # An option stands once.
        given=" ${COMP_WORDS[*]:0:COMP_CWORD} "
        for option in $options; do
            case $given in
            *" $option "*) ;;
            *) left="$left $option" ;;
            esac
        done
        mapfile -t COMPREPLY < <(compgen -W "$left" -- "$word")
        ;;
    esac
}
complete -F _dnschain dnschain
