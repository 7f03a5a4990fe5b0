# The words of capcopy, for bash. After them bash completes names of files.
_capcopy() {
    local words=
    case $COMP_CWORD,${COMP_WORDS[1]} in
    1,*) words='list copy blocks' ;;
    2,copy) words='big little' ;;
    3,copy) words='micro nano' ;;
    esac
    mapfile -t COMPREPLY < <(compgen -W "$words" -- "${COMP_WORDS[COMP_CWORD]}")
}
complete -o default -F _capcopy capcopy
