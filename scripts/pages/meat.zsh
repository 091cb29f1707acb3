#compdef meat
# Completion of meat for zsh.
local -a options places=(--cut --feed --delays --to --at --horizon) journey=(--cut --feed --delays --from --to --at --horizon)
if (( CURRENT == 2 )); then
    compadd safe plan expand replay certify check punctual departures latest reach sample
    return
fi
case ${words[CURRENT-1]} in
    --cut | --delays | --graph | --proof) _files; return ;;
    --feed) _files -/; return ;;
    --*) return ;;
esac
case $words[2] in
    safe | plan | expand | certify) options=($journey --alpha) ;;
    replay) options=($journey --graph --late) ;;
    check) options=($journey --graph --proof) ;;
    punctual) options=($journey --by --alpha) ;;
    departures) options=($journey --until --last) ;;
    latest) options=($journey --until) ;;
    reach) options=($places --until) ;;
    sample) options=(--size) ;;
esac
compadd -- $options
