# Completion of the arguments of mmcs for bash.
_mmcs() {
  local known=''
  case "$COMP_CWORD" in
    1) known='fold sha256' ;;
    2) known='2 4 8' ;;
    3) known='0 0f 1 1f' ;;
    4) known='commit open check' ;;
  esac
  mapfile -t COMPREPLY < <(compgen -W "$known" -- "${COMP_WORDS[COMP_CWORD]}")
}
complete -o default -F _mmcs mmcs
