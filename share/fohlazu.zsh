#compdef fohlazu
# Completion of the arguments of fohlazu for zsh.
local -a command blocks cut origin output quiet checkpoints

command=('1:command:()' '(- *)--help[help]')
blocks=('--blocks[bytes of an entry]:bytes')
cut=($blocks '--whole-lines[leave out a partial last line]' '--partial[take it as an entry]')
origin=('--origin[name of the log]:origin')
output=('(-o --output)'{-o,--output}'[write to a file]:output:_files')
quiet=('--quiet[no progress]')
checkpoints=('2:old checkpoint:_files' '3:new checkpoint:_files')

case "$CURRENT:${words[2]}" in
  2:*)
    _arguments '1:command:(seal prove verify prove-consistency verify-consistency join)'
    ;;
  *:seal)
    _arguments $command $cut $origin $output $quiet '--part[seal a part of a file]' '2:file:_files'
    ;;
  *:prove)
    _arguments $command $cut $output $quiet '2:checkpoint:_files' '3:file:_files' '*:numbers'
    ;;
  *:verify)
    _arguments $command $blocks $output '--raw[one entry]' \
      '2:checkpoint:_files' '3:proof:_files' '*:numbers'
    ;;
  *:prove-consistency)
    _arguments $command $cut $output $quiet $checkpoints '4:file:_files'
    ;;
  *:verify-consistency)
    _arguments $command $output $checkpoints[1] '3:proof:_files'
    ;;
  *:join)
    _arguments $command $origin $output '*:parts:_files'
    ;;
esac
