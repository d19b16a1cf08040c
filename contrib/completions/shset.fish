# Completion of shset for fish, made from the program's help by contrib/make-man.
function __shset_operands
    set -l words (commandline -opc)
    set -l count 0
    set -l index 3
    while test $index -le (count $words)
        switch $words[$index]
            case --args
                set index (math $index + 1)
            case '--*'
            case '*'
                set count (math $count + 1)
        end
        set index (math $index + 1)
    end
    echo $count
end
function __shset_takes_file
    __fish_seen_subcommand_from lint cert check print
    and test (__shset_operands) -lt (__fish_seen_subcommand_from check; and echo 2; or echo 1)
end
complete -c shset -f
complete -c shset -n __fish_use_subcommand -a lint -d 'Prints what is wrong with a script, or that it is clean'
complete -c shset -n __fish_use_subcommand -a cert -d 'Prints what is surely set at the start, in loops and round functions, as a certificate'
complete -c shset -n __fish_use_subcommand -a check -d 'Prints what is wrong with a script by a certificate of it, or that it is clean'
complete -c shset -n __fish_use_subcommand -a print -d 'Prints a script in one layout, without comments outside words'
complete -c shset -n __fish_use_subcommand -s h -l help -d 'Print help'
complete -c shset -n __fish_use_subcommand -s V -l version -d 'Print version'
complete -c shset -n '__fish_seen_subcommand_from lint cert check' -l args -x -d 'At least how many positional parameters are set when the script starts; 0 if it is not given'
complete -c shset -n '__fish_seen_subcommand_from lint cert check print' -s h -l help -d 'Print help'
complete -c shset -n '__fish_seen_subcommand_from cert' -l full -d 'Prints what is claimed round each command too'
complete -c shset -n __shset_takes_file -F
complete -c shset -n '__fish_seen_subcommand_from lint cert check; and not __shset_takes_file' -a '(set -n)'
