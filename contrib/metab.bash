# Completion of metab in bash: source contrib/metab.bash, for metab and for ./metab.
#
# The commands and their options are those of the texts in docs/help; all else is a file.
_metab_texts=$(cd "$(dirname "${BASH_SOURCE[0]}")/../docs/help" && pwd)

_metab() {
    local word=${COMP_WORDS[COMP_CWORD]} text=$_metab_texts/${COMP_WORDS[1]}.txt names
    COMPREPLY=()
    if [ "$COMP_CWORD" -eq 1 ] || { [ "$COMP_CWORD" -eq 2 ] && [ "${COMP_WORDS[1]}" = help ]; }; then
        # The commands, by the second word of their texts' first lines.
        names=$(head -q -n 1 "$_metab_texts"/*.txt | cut -d ' ' -f 2 | grep -v '^[A-Z]')
        mapfile -t COMPREPLY < <(compgen -W "$names" -- "$word")
    elif [[ $word == -* && -f $text ]]; then
        mapfile -t COMPREPLY < <(compgen -W "$(head -n 1 "$text" | grep -o -e '--[a-z]*')" -- "$word")
    fi
}

complete -o default -F _metab metab ./metab
