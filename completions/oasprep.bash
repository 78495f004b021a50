# Completions of oasprep for bash.
_oasprep() {
  local word=${COMP_WORDS[COMP_CWORD]} kinds='properties layer-names extensions' named=
  if [ "${COMP_WORDS[COMP_CWORD - 1]}" = --drop ]; then
    # After the last comma the next one begins.
    [[ $word == *,* ]] && named=${word%,*},
    mapfile -t COMPREPLY < <(compgen -P "$named" -W "$kinds" -- "${word##*,}")
  elif [[ $word == -* ]]; then
    mapfile -t COMPREPLY < <(compgen -W '--drop --key --check --same --files0-from --large --explain --progress --help --version' -- "$word")
  else
    mapfile -t COMPREPLY < <(compgen -f -- "$word")
  fi
}
complete -o filenames -F _oasprep oasprep
