# Completion of the words of pciguest for fish. It is installed as share/fish/vendor_completions.d/pciguest.fish.
# The commands and options are those that `pciguest help` and `pciguest help COMMAND` list.
function __pciguest_help
    set -l words (commandline -opc)
    $words[1] help $argv 2> /dev/null
end

# the commands, each with what it does, first and after help
function __pciguest_commands
    set -l words (commandline -opc)
    set -l commands (__pciguest_help | sed -n 's/^  \([a-z]*\)  \+/\1\t/p')
    switch "$words[2..]"
        case ''
            printf '%s\n' $commands
        case help
            string match -v 'help*' -- $commands
    end
end

# the options that may still come, each with what it does: once, and before a board; it fails where no board may come
function __pciguest_options
    set -l words (commandline -opc)
    set -l help (__pciguest_help $words[2])
    string match -q '* <BOARD>*' -- $help; or return 1
    set -l options (printf '%s\n' $help | sed -n 's/^ *\(--[a-z]*\)  \+/\1\t/p')
    for word in $words[3..]
        string match -q -- "$word"\t'*' $options; or return 1
        set options (string match -v -- "$word"\t'*' $options)
    end
    test -z "$options"; or printf '%s\n' $options
end

set -l first 'test (count (commandline -opc)) = 1'
complete -c pciguest -f
complete -c pciguest -a '(__pciguest_commands)'
complete -c pciguest -n $first -l help -s h -d 'Print help'
complete -c pciguest -n $first -l version -s V -d 'Print version'
complete -c pciguest -n "not $first; and __pciguest_options > /dev/null" -a '(__pciguest_options; __fish_complete_suffix .toml)'
