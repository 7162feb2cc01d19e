# Made by tools/words. Completes the words of rp_console: source it, or copy it to the shell's completions.
_rp_console() {
    COMPREPLY=()
    local word=${COMP_WORDS[COMP_CWORD]} last=${COMP_WORDS[COMP_CWORD-1]} words used
    case $last in [\<\>]*) compopt -o default; return ;; =|--seed|--turns|--position|--from|--to|--states|--deck) return ;; esac
    [[ $word == = ]] && return
    case ${COMP_WORDS[1]} in
        script) words=" --trace -h --help " ;;
        live) words=" --seed --turns -h --help " ;;
        chart) words=" --position --hide-self --from --to --html -h --help " ;;
        explore) words=" --states --deck -h --help " ;;
        bind) words=" --ada --local --c -h --help " ;;
        *) words=" script live chart explore bind -h --help -V --version " ;;
    esac
    [[ $COMP_CWORD -gt 1 && $words == *script* ]] && return
    for used in "${COMP_WORDS[@]:1:COMP_CWORD-1}"; do words=${words/ $used / }; done
    mapfile -t COMPREPLY < <(compgen -W "$words" -- "$word")
}
complete -F _rp_console rp_console
