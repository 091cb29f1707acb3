# Completion of the scripts for fish: their options, by their own --help, and names of files.
for script in ask card compare delays look map odds slice trial walks
    complete -c meat-$script -n 'string match -q -- "-*" (commandline -ct)' \
        -a "(meat-$script --help | string match -ar -- '--[a-z][a-z-]*')"
end
