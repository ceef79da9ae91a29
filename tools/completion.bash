# Completion of the command lc3 for bash. Commands and options are those that its help has.
_lc3() {
    local word=${COMP_WORDS[COMP_CWORD]} words=
    if ((COMP_CWORD == 1)); then
        words="$("$1" --help 2>/dev/null | sed -n 's/^    \([a-z]*\)  .*/\1/p') --help --version"
    elif [[ $word == -* ]]; then
        words=$("$1" "${COMP_WORDS[1]}" --help 2>/dev/null | grep -oE -- '--[a-z][a-z-]*' | sort -u)
    fi
    # No word has a space. Where there is none, bash completes names of files.
    # shellcheck disable=SC2207
    COMPREPLY=($(compgen -W "$words" -- "$word"))
}
complete -o default -F _lc3 lc3
