#compdef meat-ask meat-card meat-compare meat-delays meat-look meat-map meat-odds meat-slice meat-trial meat-walks
# Completion of the scripts for zsh: their options, by their own --help, and names of files.
_gnu_generic
