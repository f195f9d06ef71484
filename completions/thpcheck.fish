# fish completion for thpcheck
complete -c thpcheck -f
complete -c thpcheck -s h -l help -d 'Show the help'
complete -c thpcheck -s V -l version -d 'Show the version'
complete -c thpcheck -l explain -d 'Explain an illegal journal on standard error'
complete -c thpcheck -l summary -d 'Write the totals of each node after the verdict'
complete -c thpcheck -l progress -d 'Show progress on standard error'
complete -c thpcheck -l script -d 'Write the script that repeats the journal'
