# Completion of topichub's command line for fish.

# Whether the first word names one of these modes; without any, whether it is still to come.
function __topichub_in
    set -l words (commandline -opc)
    if set -q argv[1]
        set -q words[2]; and contains -- $words[2] $argv
    else
        not set -q words[2]
    end
end

# Whether the next word is the name of a mode.
function __topichub_at_mode
    set -l words (commandline -opc)
    not set -q words[2]; or test "$words[2..]" = help
end

complete -c topichub -f
complete -c topichub -n __topichub_at_mode -a replay -d 'Print the replies to a schedule from standard input'
complete -c topichub -n __topichub_at_mode -a check -d 'Say whether traces are legal'
complete -c topichub -n __topichub_at_mode -a serve -d 'Serve sessions on a Unix socket'
complete -c topichub -n __topichub_at_mode -a help -d 'Print help'
complete -c topichub -n '__topichub_in; or __topichub_in replay check serve' -s h -l help -d 'Print help'
complete -c topichub -n __topichub_in -s V -l version -d 'Print the version'
complete -c topichub -n '__topichub_in check' -l joined -d 'The files are to be one history'
complete -c topichub -n '__topichub_in check' -l whole -d 'That history is to be whole'
complete -c topichub -n '__topichub_in check' -l anchors -r -F -d 'Its files are to be those of which this text tells'
complete -c topichub -n '__topichub_in check' -l files-from -r -F -d 'The files that a list names'
complete -c topichub -n '__topichub_in check' -F
complete -c topichub -n '__topichub_in serve' -l sessions -x -d 'How many connections are served, 1 to 64'
complete -c topichub -n '__topichub_in serve' -l at-once -x -d 'Any number of connections, so many at a time, 1 to 1024'
complete -c topichub -n '__topichub_in serve' -l replace -d 'Take the place of a socket whose server is gone'
complete -c topichub -n '__topichub_in serve' -l until-eof -d 'End at the end of standard input'
complete -c topichub -n '__topichub_in serve' -l verbose -d 'Changes nothing'
complete -c topichub -n '__topichub_in serve' -l history -x -d 'Cut histories at so many entries, 1 to 1000000'
complete -c topichub -n '__topichub_in serve' -l memory -x -d 'How many entries all histories hold, 1024 to 1000000000'
complete -c topichub -n '__topichub_in serve' -l traces -x -a '(__fish_complete_directories)' -d 'Keep what was cut below this directory'
complete -c topichub -n '__topichub_in serve' -l socket-fd -x -d 'The descriptor of a socket that is bound already, 3 to 1023'
complete -c topichub -n '__topichub_in serve' -l busy -d 'Tell a client beyond N so, and close it'
complete -c topichub -n '__topichub_in serve' -l memory-bytes -x -d 'How many bytes it takes, 67108864 to 1099511627776'
complete -c topichub -n '__topichub_in serve' -l sync -d 'Have each trace on the disk before it gets its name'
complete -c topichub -n '__topichub_in serve' -l anchors -d 'Tell sums that bind the traces, on standard error'
complete -c topichub -n '__topichub_in serve' -a '(__fish_complete_directories)'
