# Completions of oascanon for bash.
_oascanon() {
  local commands='canon check same diff show key keys info rekey explain help' word=${COMP_WORDS[COMP_CWORD]}
  local before=${COMP_WORDS[COMP_CWORD - 1]}
  # `--limit=1` is three words, and its value begins after the second.
  [[ $word == = ]] && word=
  [[ $before == = ]] && before=${COMP_WORDS[COMP_CWORD - 2]}
  if [ "$COMP_CWORD" -eq 1 ]; then
    mapfile -t COMPREPLY < <(compgen -W "$commands --help --version" -- "$word")
  elif [[ $word == -* ]]; then
    local flags='--large --explain --progress --help'
    case ${COMP_WORDS[1]} in
      canon) flags+=' --no-clobber' ;;
      check) flags+=' --names --files0-from' ;;
      key) flags+=' --names --files0-from --check --quiet --zero' ;;
      info) flags+=' --json' ;;
      diff) flags+=' --cell --layer --brief --json --unit --limit --markers --markers-limit' ;;
      explain) flags='--help' ;;
    esac
    mapfile -t COMPREPLY < <(compgen -W "$flags" -- "$word")
  elif [ "${COMP_WORDS[1]}" = help ]; then
    mapfile -t COMPREPLY < <(compgen -W "$commands" -- "$word")
  elif [ "${COMP_WORDS[1]}" = explain ]; then
    mapfile -t COMPREPLY < <(compgen -W "$(seq 34; seq 101 113)" -- "$word")
  elif [[ ${COMP_WORDS[1]} == diff && $before == --*limit ]]; then
    mapfile -t COMPREPLY < <(compgen -W '10 100 1000 10000' -- "$word")
  elif [[ ${COMP_WORDS[1]} == diff && $before == --unit ]]; then
    mapfile -t COMPREPLY < <(compgen -W 'grid um' -- "$word")
  else
    mapfile -t COMPREPLY < <(compgen -f -- "$word")
  fi
}
complete -o filenames -F _oascanon oascanon
