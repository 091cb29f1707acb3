# shellcheck shell=bash
# Completion of the scripts for bash: their options, by their own --help, and names of files.
_meat_script() {
    local word=${COMP_WORDS[COMP_CWORD]}
    COMPREPLY=()
    if [[ $word == -* ]]; then
        mapfile -t COMPREPLY < <(compgen -W "$("$1" --help | grep -oE -- '--[a-z][a-z-]*' | sort -u)" -- "$word")
    else
        compopt -o filenames
        mapfile -t COMPREPLY < <(compgen -f -- "$word")
    fi
}
complete -F _meat_script meat-{ask,card,compare,delays,look,map,odds,slice,trial,walks}
