# Completion of the commands of ./rings, for bash: `. ./rings.bash` in the catalogue's folder.
_rings() {
    [ "$COMP_CWORD" -eq 1 ] || return 0
    COMPREPLY=($(compgen -W "$("${COMP_WORDS[0]}" --names 2>/dev/null) --help" -- "${COMP_WORDS[1]}"))
}
complete -o default -F _rings rings ./rings
