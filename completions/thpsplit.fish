# fish completion for thpsplit
complete -c thpsplit -f
complete -c thpsplit -l nodes -x -a '1 2 3 4 5 6 7 8' -d 'Memory nodes'
complete -c thpsplit -l blocks -x -d 'Blocks of each node, 1 to 4096'
complete -c thpsplit -l workers -x -d 'Workers that the script may name, 1 to 63'
complete -c thpsplit -l report -x -a 'totals journal answers' -d 'The report to write'
complete -c thpsplit -l orders -x -d 'An order for each node, 2 to 9, joined by commas'
complete -c thpsplit -l underused -x -d 'For each node off or a threshold, joined by commas'
complete -c thpsplit -l check -d 'Read a journal and check whether it is legal'
complete -c thpsplit -s h -l help -d 'Show the help'
complete -c thpsplit -s V -l version -d 'Show the version'
