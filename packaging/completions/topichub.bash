# Completion of topichub's command line for bash.
# shellcheck shell=bash

_topichub() {
    local word=${COMP_WORDS[COMP_CWORD]} before=${COMP_WORDS[COMP_CWORD - 1]} mode='' words=''
    [ "$COMP_CWORD" -eq 1 ] || mode=${COMP_WORDS[1]}
    COMPREPLY=()
    case $mode:$word in
        :-*) words='-h --help -V --version' ;;
        :*) words='replay check serve help' ;;
        replay:-*) words='-h --help' ;;
        check:-*) words='--joined --whole --anchors --files-from -h --help' ;;
        check:*)
            compopt -o filenames 2>/dev/null
            mapfile -t COMPREPLY < <(compgen -f -- "$word")
            return
            ;;
        help:*) [ "$COMP_CWORD" -ne 2 ] || words='replay check serve help' ;;
        serve:*)
            case $before:$word in
                --sessions:* | --at-once:* | --history:* | --memory:* | --socket-fd:* | --memory-bytes:* | =:*) ;; # a number
                *:-*) words='--sessions --at-once --replace --until-eof --verbose --history --memory --traces --socket-fd --busy --memory-bytes --sync --anchors -h --help' ;;
                *)
                    compopt -o filenames 2>/dev/null
                    mapfile -t COMPREPLY < <(compgen -d -- "$word")
                    return
                    ;;
            esac
            ;;
    esac
    mapfile -t COMPREPLY < <(compgen -W "$words" -- "$word")
}

complete -F _topichub topichub
