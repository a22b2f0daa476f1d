# Completion for bash: . tools/kdbsim.bash
# The command first, then its files in their order; the options of run and lockstep where the word begins with a dash.
_kdbsim() {
    local word=${COMP_WORDS[COMP_CWORD]} kinds=() kind
    case $COMP_CWORD,${COMP_WORDS[1]-},$word in
    1,*) mapfile -t COMPREPLY < <(compgen -W 'uni run lockstep replay load asm elf' -- "$word"); return 0 ;;
    *,run,-* | *,lockstep,-*) mapfile -t COMPREPLY < <(compgen -W '--harts= --steps= --rounds=' -- "$word"); compopt -o nospace; return 0 ;;
    *,uni,*) kinds=(img kdb) ;;
    *,run,*) kinds=(img map kdb jrn) ;;
    *,lockstep,*) kinds=(img map kdb plan jrn) ;;
    *,replay,*) kinds=(img map kdb jrn) ;;
    *,asm,*) kinds=(kasm img) ;;
    *,elf,*) kinds=(any img map) ;;
    esac
    kind=${kinds[COMP_CWORD - 2]-}
    COMPREPLY=()
    [ "$kind" = any ] && compopt -o filenames && mapfile -t COMPREPLY < <(compgen -f -- "$word") && return 0
    [ -n "$kind" ] && mapfile -t COMPREPLY < <(compgen -f -X "!*.$kind" -- "$word"; compgen -d -S / -- "$word")
    [[ ${#COMPREPLY[@]} -eq 1 && ${COMPREPLY[0]} == */ ]] && compopt -o nospace
    return 0
}
complete -F _kdbsim kdbsim ./kdbsim
