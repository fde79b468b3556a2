# Completion of km for bash: its options and words, and scripts that end in .km.
_km() {
  local word=${COMP_WORDS[COMP_CWORD]}
  if [[ $word == -* ]]; then
    mapfile -t COMPREPLY < <(compgen -W '--leaks --strict --help --version' -- "$word")
    return
  fi
  mapfile -t COMPREPLY < <(compgen -f -X '!*.km' -- "$word"; compgen -d -S / -- "$word")
  if [ "$COMP_CWORD" -eq 1 ] && [[ check == "$word"* ]]; then
    COMPREPLY+=(check)
  fi
  if [ "${#COMPREPLY[@]}" -eq 1 ] && [[ ${COMPREPLY[0]} == */ ]]; then
    compopt -o nospace
  fi
}
complete -F _km km
