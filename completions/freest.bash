# What freest completes in bash: its commands and their options, as docs/LANGUAGE.md has them.
_freest() {
    local this=${COMP_WORDS[COMP_CWORD]} words='' word
    COMPREPLY=()
    case ${COMP_WORDS[COMP_CWORD - 1]} in
    *[\<\>]*)
        compopt -o default
        return ;;
    --events | --proof) ;;
    --* | =) return ;;
    esac
    case $COMP_CWORD-${COMP_WORDS[1]} in
    1-*) words='equiv show check run make audit' ;;
    *-equiv) words='--budget --proof' ;;
    *-check) words='--budget' ;;
    *-run) words='--steps --workers --budget --buffer --events' ;;
    esac
    # (each option at most once)
    for word in $words; do
        case " ${COMP_WORDS[*]:1:COMP_CWORD-1} " in
        *" $word "*) ;;
        *) [[ $word == "$this"* ]] && COMPREPLY+=("$word") ;;
        esac
    done
}
complete -F _freest freest
