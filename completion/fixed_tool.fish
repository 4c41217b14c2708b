complete -c fixed_tool -f
complete -c fixed_tool -n __fish_use_subcommand -a limit -d 'read at most this many bytes'
complete -c fixed_tool -n __fish_use_subcommand -a self -d 'answer lines of its own making'
