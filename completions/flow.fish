# Completion of flow's command lines for fish. It belongs into /usr/share/fish/vendor_completions.d or
# ~/.config/fish/completions, under the name flow.fish.
# scripts/test_pages.py compares it with the help.

# No files before a command is named; a problem or a solution may be any file.
complete -c flow -n __fish_use_subcommand -f
complete -c flow -n 'not __fish_seen_subcommand_from help' -s h -l help -d 'Print help'
complete -c flow -n __fish_use_subcommand -s V -l version -d 'Print version'
complete -c flow -n '__fish_seen_subcommand_from solve' -l value -d 'Print the value alone'
complete -c flow -n '__fish_seen_subcommand_from cut' -l arcs -d 'Print the arcs that leave the source side too, as lines a SRC DST CAP'
complete -c flow -n '__fish_seen_subcommand_from cut' -l sink -d 'Print the minimum cut nearest the sinks instead'
complete -c flow -n '__fish_seen_subcommand_from connect' -l undirected -d 'Count the arc lines with exactly one end in the set'
complete -c flow -n '__fish_seen_subcommand_from connect' -l pair -d 'Only sets with every source inside and every sink outside'
complete -c flow -n '__fish_seen_subcommand_from check' -l feasible -d "Print feasible VALUE and don't ask whether a greater flow exists"
complete -c flow -n __fish_use_subcommand -a solve -d 'Print a maximum flow'
complete -c flow -n __fish_use_subcommand -a cut -d 'Print a minimum cut'
complete -c flow -n __fish_use_subcommand -a connect -d 'Print the edge connectivity'
complete -c flow -n __fish_use_subcommand -a check -d 'Check a solution of a problem'
complete -c flow -n __fish_use_subcommand -a help -d 'Print this message or the help of the given subcommand(s)'
complete -c flow -n '__fish_seen_subcommand_from help' -f -a 'solve cut connect check'
