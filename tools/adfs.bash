# Completion of adfs for bash. Made by tools/make_words from docs/WORDS.md; load it with `source tools/adfs.bash`.
_adfs() {
    local word=${COMP_WORDS[COMP_CWORD]} before=${COMP_WORDS[COMP_CWORD - 1]} command=${COMP_WORDS[1]} options=
    if [ "$COMP_CWORD" -eq 1 ]; then
        COMPREPLY=($(compgen -W 'run trace replay plan gen help' -- "$word"))
        return
    fi
    case $command in
        run) options='--machines --workers --threads --credits --broad --buffer --part --lanes --pool' ;;
        trace) options='--machines --workers --credits --broad --buffer --part --schedule' ;;
        replay) options='' ;;
        plan) options='' ;;
        gen) options='--machines --workers --credits --broad --buffer' ;;
        help) options='' ;;
    esac
    case $before in
        --part) COMPREPLY=($(compgen -W 'modulo block listed:' -- "$word")) ; return ;;
        --*) return ;;
    esac
    case $word in
        -*) COMPREPLY=($(compgen -W "$options" -- "$word")) ;;
        *) case $command in
            run|trace|replay|plan) COMPREPLY=($(compgen -f -- "$word")) ;;
        esac ;;
    esac
}
complete -o filenames -F _adfs adfs ./adfs
