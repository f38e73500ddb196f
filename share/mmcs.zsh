#compdef mmcs
# Completion of the arguments of mmcs for zsh.
_arguments \
  '1:hash:(fold sha256)' \
  '2:arity:(2 4 8)' \
  '3:levels below the root:(0 0f 1 1f)' \
  '4:action:(commit open check)'
