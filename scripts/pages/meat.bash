# shellcheck shell=bash
# Completion of meat for bash.
_meat() {
    local word=${COMP_WORDS[COMP_CWORD]} before=${COMP_WORDS[COMP_CWORD - 1]} options=''
    local places='--cut --feed --delays --to --at --horizon' journey='--cut --feed --delays --from --to --at --horizon'
    COMPREPLY=()
    if [ "$COMP_CWORD" = 1 ]; then
        options='safe plan expand replay certify check punctual departures latest reach sample'
    else
        case $before in
            --cut | --delays | --graph | --proof) compopt -o filenames; mapfile -t COMPREPLY < <(compgen -f -- "$word"); return ;;
            --feed) compopt -o filenames; mapfile -t COMPREPLY < <(compgen -d -- "$word"); return ;;
            --*) return ;;
        esac
        case ${COMP_WORDS[1]} in
            safe | plan | expand | certify) options="$journey --alpha" ;;
            replay) options="$journey --graph --late" ;;
            check) options="$journey --graph --proof" ;;
            punctual) options="$journey --by --alpha" ;;
            departures) options="$journey --until --last" ;;
            latest) options="$journey --until" ;;
            reach) options="$places --until" ;;
            sample) options='--size' ;;
        esac
    fi
    mapfile -t COMPREPLY < <(compgen -W "$options" -- "$word")
}
complete -F _meat meat
