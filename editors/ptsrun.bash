# Completes the words of ptsrun in bash: source this file.
_ptsrun() {
    local word=${COMP_WORDS[COMP_CWORD]} before=${COMP_WORDS[COMP_CWORD - 1]}
    COMPREPLY=()
    if [ "$COMP_CWORD" = 1 ]; then
        mapfile -t COMPREPLY < <(compgen -W 'run check print' -- "$word")
        return
    fi
    case $before in
    '<') mapfile -t COMPREPLY < <(compgen -f -X '!*.pts' -- "$word"; compgen -d -S / -- "$word") ;;
    --workers) mapfile -t COMPREPLY < <(compgen -W '1 2 4 8 16 32 64' -- "$word") ;;
    --chunk) mapfile -t COMPREPLY < <(compgen -W '1 64 1024 65536' -- "$word") ;;
    *) [ "${COMP_WORDS[1]}" != run ] || mapfile -t COMPREPLY < <(compgen -W '--workers --chunk' -- "$word") ;;
    esac
}
complete -F _ptsrun ptsrun ./ptsrun
