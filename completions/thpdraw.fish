# fish completion for thpdraw
complete -c thpdraw -f
complete -c thpdraw -s h -l help -d 'Show the help'
complete -c thpdraw -s V -l version -d 'Show the version'
complete -c thpdraw -l table -d 'Write a table instead of the picture'
complete -c thpdraw -l node -x -d 'Draw this node only'
complete -c thpdraw -l progress -d 'Show progress on standard error'
