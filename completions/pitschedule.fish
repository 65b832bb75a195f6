# Completion of pitschedule, by tools/make_docs.py, for fish.
complete -c pitschedule -f
complete -c pitschedule -n __fish_use_subcommand -a check -d 'Check a schedule against each limit; print its value, and the bound at prices'
complete -c pitschedule -n __fish_use_subcommand -a bound -d 'Print what no schedule is worth more than, at prices of limits'
complete -c pitschedule -n __fish_use_subcommand -a help -d 'Print help'
complete -c pitschedule -n __fish_use_subcommand -s V -l version -d 'Print version'
complete -c pitschedule -s h -l help -d 'Print help'
complete -c pitschedule -n '__fish_seen_subcommand_from check bound' -l problem -rF -d 'Scheduling problem: amounts, terms, discount factors and capacities'
complete -c pitschedule -n '__fish_seen_subcommand_from check bound' -l prec -rF -d 'Precedences (.prec): the predecessors of each block'
complete -c pitschedule -n '__fish_seen_subcommand_from check' -l schedule -rF -d 'Schedule: shares of blocks by period and destination'
complete -c pitschedule -n '__fish_seen_subcommand_from check' -l prices -rF -d 'Prices of the limits in each period, for the bound'
complete -c pitschedule -n '__fish_seen_subcommand_from bound' -l prices -rF -d 'Prices of the limits in each period, for the bound'
