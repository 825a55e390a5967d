# What freest completes in fish: its commands and their options, as docs/LANGUAGE.md has them.
complete -c freest -f
complete -c freest -n __fish_use_subcommand -a equiv -d 'say whether two session types are equivalent'
complete -c freest -n __fish_use_subcommand -a show -d 'write the canonical text of a module'
complete -c freest -n __fish_use_subcommand -a check -d 'say whether a module is well typed'
complete -c freest -n __fish_use_subcommand -a run -d 'run a module that is well typed'
complete -c freest -n __fish_use_subcommand -a make -d 'make, check and run a module with N channels'
complete -c freest -n __fish_use_subcommand -a audit -d 'say whether a certificate shows two session types to be equivalent'
complete -c freest -n '__fish_seen_subcommand_from equiv check run' -l budget -x -d 'how far one question is looked into, 1 to 10,000'
complete -c freest -n '__fish_seen_subcommand_from equiv' -l proof -d 'write a certificate in place of a yes'
complete -c freest -n '__fish_seen_subcommand_from run' -l steps -x -d 'how many events the run may have, 0 to 2,000,000'
complete -c freest -n '__fish_seen_subcommand_from run' -l workers -x -d 'on how many threads at most its tasks are moved, 1 to 8'
complete -c freest -n '__fish_seen_subcommand_from run' -l buffer -x -d 'how many messages a channel holds, 1 to 64'
complete -c freest -n '__fish_seen_subcommand_from run' -l events -d 'write the events of the run behind its report'
