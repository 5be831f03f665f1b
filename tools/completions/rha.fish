# Completion of rha for fish: copy it to ~/.config/fish/completions.

# Prints what may follow the words of a request line that stand there.
function __rha_request
    set -l words (commandline -opc)
    switch (math (count $words) - 3)"/$words[4]/$words[6]"
        case '0/*'
            printf '%s\n' at history changed watermark durable
        case '2/at/*'
            printf '%s\n' route prefix cover peer all
        case 3/at/all 4/at/prefix 4/at/cover 6/at/peer '5/changed/*'
            echo after
        case '7/history/*'
            echo skip
    end
end

# Whether this is the command.
function __rha_is
    set -l words (commandline -opc)
    test "$words[2]" = $argv[1]
end

complete -c rha -f
complete -c rha -s h -l help -d 'Show help'

complete -c rha -n __fish_is_first_arg -s V -l version -d 'Show the version'
complete -c rha -n __fish_is_first_arg -a create -d 'Make a folder with an empty archive'
complete -c rha -n __fish_is_first_arg -a load -d "Load files of MRT records as a collector's"
complete -c rha -n __fish_is_first_arg -a ask -d 'Answer a request line'
complete -c rha -n __fish_is_first_arg -a serve -d 'Serve an archive on a socket'
complete -c rha -n __fish_is_first_arg -a check -d 'Read through an archive'
complete -c rha -n __fish_is_first_arg -a info -d 'Show how far an archive has come, and how much room it has left'
complete -c rha -n __fish_is_first_arg -a dump -d 'Write the table of one moment'
complete -c rha -n __fish_is_first_arg -a peers -d 'Count the routes of each peer at a moment'
complete -c rha -n __fish_is_first_arg -a diff -d 'Compare the tables of two moments'
complete -c rha -n __fish_is_first_arg -a find -d 'Find what happened to a prefix, or which routes it has'

complete -c rha -n '__rha_is create' -x -l collectors -d 'How many collectors there are, 1 to 16'
complete -c rha -n '__rha_is create' -x -l ring -d 'Pages of the ring of each collector, 9 to 65535'
complete -c rha -n '__rha_is create' -x -l pages -d 'Pages of the archive, with its rings'
complete -c rha -n '__rha_is create' -x -l blocks -d 'Write-once blocks of the archive'
complete -c rha -n '__rha_is create' -a '(__fish_complete_directories)'

for command in load ask serve check info dump peers diff find
    complete -c rha -n "__rha_is $command" -x -l wait -d 'Seconds to wait while the archive is in use, 0 to 1000000'
end

complete -c rha -n '__rha_is load' -x -l collector -d 'The collector, 0 to 15'
complete -c rha -n '__rha_is load' -x -l batch -d 'The most records of a batch, 1 to 1000'
complete -c rha -n '__rha_is load' -x -l mark -d "The collector's mark once the last file is loaded"
complete -c rha -n '__rha_is load' -l resume -d 'Leave out the records that were offered before'
complete -c rha -n '__rha_is load' -l lose-entries -d 'Leave table entries without a next hop out'
complete -c rha -n '__rha_is load' -l strict -d 'End at a file that gives cause for doubt'
complete -c rha -n '__rha_is load' -F

complete -c rha -n '__rha_is serve' -x -l listen -d 'IPv4 address and port'
complete -c rha -n '__rha_is serve' -x -l workers -d 'How many connections are served at once, 1 to 16'
complete -c rha -n '__rha_is serve' -l read-only -d 'Refuse feed, mark and stop there'
complete -c rha -n '__rha_is serve' -l close-on-http -d 'End a connection after a request of HTTP'
complete -c rha -n '__rha_is serve' -r -F -l admin -d 'A Unix socket to make, which takes every line'
complete -c rha -n '__rha_is serve' -x -l http -d 'IPv4 address and port that answers HTTP alone'
complete -c rha -n '__rha_is serve' -x -l idle -d 'Seconds after which an idle connection is ended, 1 to 1000000'
complete -c rha -n '__rha_is serve' -a '(__fish_complete_directories)'

complete -c rha -n '__rha_is check' -a '(__fish_complete_directories)'

complete -c rha -n '__rha_is info' -l json -d 'Print one object of JSON'
complete -c rha -n '__rha_is info' -a '(__fish_complete_directories)'

for command in dump peers
    complete -c rha -n "__rha_is $command" -x -l at -d 'The moment of the table'
end
for command in dump peers diff find
    complete -c rha -n "__rha_is $command" -l connect -d 'Ask the server at an address and port, in the place of a folder'
    complete -c rha -n "__rha_is $command" -a '(__fish_complete_directories)'
end

complete -c rha -n '__rha_is dump' -x -l peer -d 'Of this peer alone'
complete -c rha -n '__rha_is dump' -x -l format -a 'lines bgpdump json' -d 'How a row is written'
complete -c rha -n '__rha_is diff' -x -l within -d 'Only prefixes inside this one'

complete -c rha -n '__rha_is find' -l exact -d 'This prefix alone'
complete -c rha -n '__rha_is find' -l more -d 'All prefixes inside it'
complete -c rha -n '__rha_is find' -l less -d 'All prefixes that contain it'
complete -c rha -n '__rha_is find' -x -l since -d 'What happened from this moment on'
complete -c rha -n '__rha_is find' -x -l until -d 'The last moment'
complete -c rha -n '__rha_is find' -x -l origin -d 'Only routes whose path ends in this AS number'
complete -c rha -n '__rha_is find' -x -l via -d 'Only routes whose path has this AS number'

complete -c rha -n '__rha_is ask' -l all -d 'Follow M to the end'
complete -c rha -n '__rha_is ask' -l human -d 'Dates, and communities as texts'
complete -c rha -n '__rha_is ask; and test (count (commandline -opc)) = 2' -a '(__fish_complete_directories)'
complete -c rha -n '__rha_is ask' -a '(__rha_request)'
