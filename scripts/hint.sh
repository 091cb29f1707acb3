# What a call adds on a terminal where its first word is no command; for the launcher `meat`, the installed `meat` and
# scripts/preview. The program refuses such a word in any case.
# shellcheck shell=sh

commands='safe expand plan replay certify check punctual departures latest reach sample'

# Prints the commands, and where the manual page is. The words: the first one of the call, and how to read the page.
hint() {
    [ -t 2 ] || return 0
    for command in $commands; do
        [ "$1" != "$command" ] || return 0
    done
    printf 'meat: the commands are %s; the manual page: %s\n' "$commands" "$2" >&2
}
