#!/bin/sh
# sh tools/crates.sh NAME..  the named crates and all crates that they stand on, lowest first, as crates.txt has them
tac -- "$(dirname -- "$0")/../crates.txt" | awk -v needed=" $* " '
  { name = $1; sub(":", "", name) }
  index(needed, " " name " ") { sub(/[^:]*:/, ""); needed = needed $0 " "; print name }' | tac
