# Bash completion of karvelorn: commands, the options of each by its --help, and files.
_karvelorn() {
  local word=${COMP_WORDS[COMP_CWORD]} words
  if [ "$COMP_CWORD" -eq 1 ]; then
    words="$("${COMP_WORDS[0]}" --commands 2>/dev/null) --help --version"
  elif [ "${word#-}" != "$word" ]; then
    words=$("${COMP_WORDS[0]}" "${COMP_WORDS[1]}" --help 2>/dev/null | grep -oE -- '^  +(-[a-z], )?--?[a-z-]+' | grep -oE -- '--?[a-z-]+$')
  else
    compopt -o filenames 2>/dev/null
    mapfile -t COMPREPLY < <(compgen -f -- "$word")
    return
  fi
  mapfile -t COMPREPLY < <(compgen -W "$words" -- "$word")
}
complete -F _karvelorn karvelorn ./karvelorn
