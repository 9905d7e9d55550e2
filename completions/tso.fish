# Completions of tso for fish: a line for each command, and one for each option of a command.

complete -c tso -f -n __fish_use_subcommand -l help
complete -c tso -f -n __fish_use_subcommand -l version
complete -c tso -f -n __fish_use_subcommand -a run
complete -c tso -f -n __fish_use_subcommand -a trace
complete -c tso -f -n __fish_use_subcommand -a sweep
complete -c tso -f -n __fish_use_subcommand -a counts
complete -c tso -f -n __fish_use_subcommand -a outcomes
complete -c tso -f -n __fish_use_subcommand -a why
complete -c tso -f -n __fish_use_subcommand -a check
complete -c tso -f -n __fish_use_subcommand -a witness
complete -c tso -f -n __fish_use_subcommand -a tables
complete -c tso -f -n __fish_use_subcommand -a help
# The script ./tso, which is called by a path, has words of its own, before a folder.
complete -c tso -f -n "__fish_use_subcommand; and string match -q '*/*' -- (commandline -opc)[1]" -l prove
complete -c tso -f -n "__fish_use_subcommand; and string match -q '*/*' -- (commandline -opc)[1]" -l install
complete -c tso -f -n "__fish_use_subcommand; and string match -q '*/*' -- (commandline -opc)[1]" -l uninstall
complete -c tso -f -n "__fish_use_subcommand; and string match -q '*/*' -- (commandline -opc)[1]" -l program
complete -c tso -f -n "contains -- --install (commandline -opc)" -l verbose
complete -c tso -f -n "contains -- --install (commandline -opc)" -a "(__fish_complete_directories)"
complete -c tso -f -n "contains -- --uninstall (commandline -opc)" -a "(__fish_complete_directories)"

complete -c tso -f -n "__fish_seen_subcommand_from help" -a "run trace sweep counts outcomes why check witness tables help"

complete -c tso -f -n "__fish_seen_subcommand_from run" -l protocol -x -a "msi mesi moesi mosi"
complete -c tso -f -n "__fish_seen_subcommand_from run" -l depth -x
complete -c tso -f -n "__fish_seen_subcommand_from run" -l sets -x
complete -c tso -f -n "__fish_seen_subcommand_from run" -l ways -x
complete -c tso -f -n "__fish_seen_subcommand_from run" -l words -x -a "1 2 4"
complete -c tso -f -n "__fish_seen_subcommand_from run" -l bus -x -a "atomic split"
complete -c tso -f -n "__fish_seen_subcommand_from run" -l instructions -x -a "basic all"
complete -c tso -f -n "__fish_seen_subcommand_from run" -l json
complete -c tso -f -n "__fish_seen_subcommand_from run" -l help

complete -c tso -f -n "__fish_seen_subcommand_from trace" -l protocol -x -a "msi mesi moesi mosi"
complete -c tso -f -n "__fish_seen_subcommand_from trace" -l depth -x
complete -c tso -f -n "__fish_seen_subcommand_from trace" -l sets -x
complete -c tso -f -n "__fish_seen_subcommand_from trace" -l ways -x
complete -c tso -f -n "__fish_seen_subcommand_from trace" -l words -x -a "1 2 4"
complete -c tso -f -n "__fish_seen_subcommand_from trace" -l bus -x -a "atomic split"
complete -c tso -f -n "__fish_seen_subcommand_from trace" -l instructions -x -a "basic all"
complete -c tso -f -n "__fish_seen_subcommand_from trace" -l json
complete -c tso -f -n "__fish_seen_subcommand_from trace" -l help

complete -c tso -f -n "__fish_seen_subcommand_from sweep" -l protocol -x -a "msi mesi moesi mosi"
complete -c tso -f -n "__fish_seen_subcommand_from sweep" -l depth -x
complete -c tso -f -n "__fish_seen_subcommand_from sweep" -l sets -x
complete -c tso -f -n "__fish_seen_subcommand_from sweep" -l ways -x
complete -c tso -f -n "__fish_seen_subcommand_from sweep" -l words -x -a "1 2 4"
complete -c tso -f -n "__fish_seen_subcommand_from sweep" -l bus -x -a "atomic split"
complete -c tso -f -n "__fish_seen_subcommand_from sweep" -l instructions -x -a "basic all"
complete -c tso -f -n "__fish_seen_subcommand_from sweep" -l from -x
complete -c tso -f -n "__fish_seen_subcommand_from sweep" -l seeds -x
complete -c tso -f -n "__fish_seen_subcommand_from sweep" -l length -x
complete -c tso -f -n "__fish_seen_subcommand_from sweep" -l help

complete -c tso -f -n "__fish_seen_subcommand_from counts" -l protocol -x -a "msi mesi moesi mosi"
complete -c tso -f -n "__fish_seen_subcommand_from counts" -l depth -x
complete -c tso -f -n "__fish_seen_subcommand_from counts" -l sets -x
complete -c tso -f -n "__fish_seen_subcommand_from counts" -l ways -x
complete -c tso -f -n "__fish_seen_subcommand_from counts" -l words -x -a "1 2 4"
complete -c tso -f -n "__fish_seen_subcommand_from counts" -l bus -x -a "atomic split"
complete -c tso -f -n "__fish_seen_subcommand_from counts" -l instructions -x -a "basic all"
complete -c tso -f -n "__fish_seen_subcommand_from counts" -l from -x
complete -c tso -f -n "__fish_seen_subcommand_from counts" -l seeds -x
complete -c tso -f -n "__fish_seen_subcommand_from counts" -l length -x
complete -c tso -f -n "__fish_seen_subcommand_from counts" -l given
complete -c tso -f -n "__fish_seen_subcommand_from counts" -l json
complete -c tso -f -n "__fish_seen_subcommand_from counts" -l help

complete -c tso -f -n "__fish_seen_subcommand_from outcomes" -l depth -x
complete -c tso -f -n "__fish_seen_subcommand_from outcomes" -l states -x
complete -c tso -f -n "__fish_seen_subcommand_from outcomes" -l show -x -a "condition registers all"
complete -c tso -f -n "__fish_seen_subcommand_from outcomes" -l instructions -x -a "basic all"
complete -c tso -f -n "__fish_seen_subcommand_from outcomes" -l assert
complete -c tso -f -n "__fish_seen_subcommand_from outcomes" -l json
complete -c tso -f -n "__fish_seen_subcommand_from outcomes" -l help

complete -c tso -f -n "__fish_seen_subcommand_from why" -l model -x -a "tso sc"
complete -c tso -f -n "__fish_seen_subcommand_from why" -l cases -x
complete -c tso -f -n "__fish_seen_subcommand_from why" -l instructions -x -a "basic all"
complete -c tso -f -n "__fish_seen_subcommand_from why" -l assert
complete -c tso -f -n "__fish_seen_subcommand_from why" -l json
complete -c tso -f -n "__fish_seen_subcommand_from why" -l help

complete -c tso -f -n "__fish_seen_subcommand_from check" -l instructions -x -a "basic all"
complete -c tso -f -n "__fish_seen_subcommand_from check" -l help

complete -c tso -f -n "__fish_seen_subcommand_from witness" -l depth -x
complete -c tso -f -n "__fish_seen_subcommand_from witness" -l instructions -x -a "basic all"
complete -c tso -f -n "__fish_seen_subcommand_from witness" -l help

complete -c tso -f -n "__fish_seen_subcommand_from tables" -l protocol -x -a "msi mesi moesi mosi"
complete -c tso -f -n "__fish_seen_subcommand_from tables" -l help
