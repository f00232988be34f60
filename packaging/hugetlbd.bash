# Completion of hugetlbd and hugetlbctl for bash.
_hugetlbd_files() {
    mapfile -t COMPREPLY < <(compgen -f -- "$1")
    compopt -o filenames 2>/dev/null
}

_hugetlbd_words() {
    mapfile -t COMPREPLY < <(compgen -W "$1" -- "$2")
}

_hugetlbd() {
    local now=${COMP_WORDS[COMP_CWORD]} before=${COMP_WORDS[COMP_CWORD - 1]}
    case $before in
        --page) _hugetlbd_words "1024 4096 65536 2097152" "$now" ;;
        --frames) _hugetlbd_words "4,4 4096 4096,4096" "$now" ;;
        --slots) _hugetlbd_words "4 8 64" "$now" ;;
        --port) _hugetlbd_words "0 7070" "$now" ;;
        --workers) _hugetlbd_words "4 8 64" "$now" ;;
        --trace) _hugetlbd_words "0 65536" "$now" ;;
        --idle) _hugetlbd_words "0 600" "$now" ;;
        --sessions) COMPREPLY=() ;;
        *)
            local words="--frames --page --slots --help"
            [ "${COMP_WORDS[1]}" = serve ] && words="--port --sessions --workers --trace --idle $words"
            [ "$COMP_CWORD" = 1 ] && words="script serve help --version $words"
            _hugetlbd_words "$words" "$now"
            ;;
    esac
}

_hugetlbctl() {
    local now=${COMP_WORDS[COMP_CWORD]} before=${COMP_WORDS[COMP_CWORD - 1]}
    case $before in
        --page) _hugetlbd_words "1024 4096 65536 2097152" "$now" ;;
        --program | --svg | --html | --from | --root) _hugetlbd_files "$now" ;;
        --frames | --slots | --port | --listen | --watch | --end | --within | --pid | --seconds | --times) COMPREPLY=() ;;
        *)
            case ${COMP_WORDS[1]}:$now in
                plan:-*) _hugetlbd_words "--program --from --root --worst --svg --html --json --lines --sysctl --cmdline --fstab --help" "$now" ;;
                observe:-*) _hugetlbd_words "--page --root --help" "$now" ;;
                who:-*) _hugetlbd_words "--page --root --json --help" "$now" ;;
                *:-*) _hugetlbd_words "--program --port --frames --page --slots --svg --prometheus --listen --watch --end --within --pid --seconds --times --version --help" "$now" ;;
                *)
                    _hugetlbd_files "$now"
                    [ "$COMP_CWORD" = 1 ] && mapfile -t -O "${#COMPREPLY[@]}" COMPREPLY < <(compgen -W "plan observe who help" -- "$now")
                    ;;
            esac
            ;;
    esac
}

complete -F _hugetlbd hugetlbd
complete -F _hugetlbctl hugetlbctl
