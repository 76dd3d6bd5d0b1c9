# Completes the words of diecast in bash: source this file.

# Whether one of the words before the one at hand is this.
_diecast_has() {
    local place
    for ((place = 2; place < COMP_CWORD; place++)); do
        [ "${COMP_WORDS[place]}" = "$1" ] && return 0
    done
    return 1
}

# The options of a command that are not there yet.
_diecast_options() {
    local option
    for option in "$@"; do
        _diecast_has "$option" || echo "$option"
    done
}

_diecast() {
    local word=${COMP_WORDS[COMP_CWORD]} before=${COMP_WORDS[COMP_CWORD - 1]} choices=
    COMPREPLY=()
    if [ "$COMP_CWORD" -eq 1 ]; then
        choices="run plan gen"
    elif [ "$before" = --view ]; then
        choices="journal events traces summary"
    elif [ "$before" = --host-ticks ]; then
        return
    elif [ "$COMP_CWORD" -eq 2 ] && [ "${COMP_WORDS[1]}" != gen ]; then
        mapfile -t COMPREPLY < <(compgen -f -X '!*.toml' -- "$word"; compgen -d -- "$word")
        return
    elif [ "${COMP_WORDS[1]}" = run ]; then
        choices=$(_diecast_options --host-ticks --view)
    elif [ "${COMP_WORDS[1]}" = gen ] && [ "$COMP_CWORD" -gt 2 ]; then
        choices=$(_diecast_options --host-ticks)
    fi
    mapfile -t COMPREPLY < <(compgen -W "$choices" -- "$word")
}
complete -o filenames -F _diecast diecast
