#compdef topichub
# Completion of topichub's command line for zsh.

_topichub_modes() {
    local -a modes
    modes=(
        'replay:print the replies to a schedule from standard input'
        'check:say whether traces are legal'
        'serve:serve sessions on a Unix socket'
        'help:print help'
    )
    _describe -t modes mode modes
}

_topichub() {
    local context state state_descr line ret=1
    typeset -A opt_args
    local -a help
    help=('(- : *)'{-h,--help}'[print help]')
    _arguments -C "$help[@]" \
        '(- : *)'{-V,--version}'[print the version]' \
        '1: :_topichub_modes' \
        '*:: :->words' && ret=0
    [[ $state == words ]] || return ret
    case $line[1] in
        replay)
            _arguments "$help[@]" && ret=0
            ;;
        check)
            _arguments "$help[@]" \
                '--joined[the files are to be one history]' \
                '--whole[that history is to be whole]' \
                '--anchors=[its files are to be those of which this text tells]:anchors:_files' \
                '(*)--files-from=[the files that a list names]:list:_files' \
                '*:trace:_files' && ret=0
            ;;
        serve)
            _arguments "$help[@]" \
                '(--at-once --replace --until-eof --verbose --history --memory --traces --socket-fd --busy --memory-bytes --sync --anchors)--sessions=[how many connections are served]:number from 1 to 64: ' \
                '(--sessions)--at-once=[any number of connections, so many at a time]:number from 1 to 1024: ' \
                '(--sessions --socket-fd)--replace[take the place of a socket whose server is gone]' \
                '(--sessions)--until-eof[end at the end of standard input]' \
                '(--sessions)--verbose[changes nothing]' \
                '(--sessions)--history=[cut histories at so many entries]:number from 1 to 1000000: ' \
                '(--sessions)--memory=[how many entries all histories hold]:number from 1024 to 1000000000: ' \
                '(--sessions)--traces=[keep what was cut below this directory]:directory:_files -/' \
                '(--sessions --replace)--socket-fd=[a socket that is bound already]:descriptor from 3 to 1023: ' \
                '(--sessions)--busy[tell a client beyond N so, and close it]' \
                '(--sessions)--memory-bytes=[how many bytes it takes]:number from 67108864 to 1099511627776: ' \
                '(--sessions)--sync[have each trace on the disk before it gets its name]' \
                '(--sessions)--anchors[tell sums that bind the traces, on standard error]' \
                '1:path of the new socket:_files -/' && ret=0
            ;;
        help)
            _arguments '1: :_topichub_modes' && ret=0
            ;;
    esac
    return ret
}

_topichub "$@"
