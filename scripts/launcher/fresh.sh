# Whether the program that was built last is that of the present sources; for the launcher `meat` and for scripts/preview.
# `top` is the folder of the repository.
# shellcheck shell=sh
# shellcheck disable=SC2154 # `top` is set where this file is read

program=$top/out/meat
# What the program was built from: the kit, and then the crates. It is as old as the build's beginning, so that a
# source that changes meanwhile is newer.
built=$top/out/built

# The kit, by its file and its line; nothing where there is none.
kit_of() {
    rt=$(command -v rt) || return 0
    rt=$(readlink -f -- "$rt")
    stat -L -c '%n %i %s %Y' -- "$rt" | tr '\n' ' '
    cat -- "${rt%/*}/../KIT-ID" 2>/dev/null | tr '\n' ' '
}

# Whether the program is there, and neither a source of it nor the kit has changed.
is_fresh() {
    [ -x "$program" ] && [ -f "$built" ] || return 1
    { IFS= read -r kit && IFS= read -r crates; } <"$built" || return 1
    now=$(kit_of)
    [ -z "$now" ] || [ "$now" = "$kit" ] || return 1
    # shellcheck disable=SC2086 # the crates are words
    newer=$(CDPATH='' cd -- "$top/crates" && find $crates ../crates.txt \( -name out -o -name must-fail \) -prune -o \
        -newer "$built" \( -name '*.rt' -o -name '*.antt' -o -name crates.txt -o -type d -path '*/*' \) -print) || return 1
    [ -z "$newer" ]
}
