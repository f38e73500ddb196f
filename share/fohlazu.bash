# Completion of the arguments of fohlazu for bash.
_fohlazu() {
  local known='' word="${COMP_WORDS[COMP_CWORD]}"
  if [ "$COMP_CWORD" -eq 1 ]; then
    known='seal prove verify prove-consistency verify-consistency join --help --version'
  elif [ "$3" = --blocks ]; then
    known='512 4096 65536'
  elif [ "${word#-}" != "$word" ]; then
    case "${COMP_WORDS[1]}" in
      seal) known='--origin --part --blocks --whole-lines --partial --quiet' ;;
      prove | prove-consistency) known='--blocks --whole-lines --partial --quiet' ;;
      verify) known='--blocks --raw' ;;
      join) known='--origin' ;;
    esac
    known="$known --output --help"
  fi
  mapfile -t COMPREPLY < <(compgen -W "$known" -- "$word")
}
complete -o default -F _fohlazu fohlazu
