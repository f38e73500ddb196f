#!/bin/sh
# A file that GNU parallel cuts in 16 parts and hands to two or four processes, beside one.
#
# With --pipe -N one process reads the file and counts lines, and --block is more than a part has. Blocks need no
# counting: by --pipepart each process reads its own part. {#} is the number of a part.
# shellcheck disable=SC2016 # parallel's shells expand these commands
. "$(dirname -- "$0")/../parties.sh"
needs parallel openssl
export PARALLEL_HOME="$work"

lines() {
  parallel --plain -j "$1" --pipe -N 65536 --block 8M '"$FOHLAZU" seal --part - -o part."$(printf %02d {#})"' < file
}

blocks() {
  parallel --plain -j "$1" --pipepart -a file --recend '' --block 4M \
    '"$FOHLAZU" seal --part --blocks 4096 - -o part."$(printf %02d {#})"'
}

# Seals the file by one process, and in parts by several, which are joined and compared with the one checkpoint.
compared() {
  kind="$1"
  shift
  timed 'one process' fohlazu seal --origin parts.example "$@" file -o checkpoint
  cat checkpoint
  for processes in 2 4; do
    timed "$processes processes" "$kind" "$processes"
    fohlazu join --origin parts.example part.?? | cmp - checkpoint || fail 'the joined checkpoint is another'
    echo "$(find . -name 'part.??' | wc -l) parts, joined, have the checkpoint of the file"
    rm part.??
  done
}

say 'A file of 64 MiB, less 1000 lines of 64 bytes, made from a seed.'
stream 'a file' "$(((64 * 16384 - 1000) * 63 * 3 / 4))" | base64 -w 63 > file

say 'Its lines, sealed by one process, and in parts.'
compared lines

say 'Its blocks of 4096 bytes.'
compared blocks --blocks 4096

say 'A file that is cut in other places has no parts that can be joined.'
head -n 20000 file | parallel --plain -j 2 --pipe -N 10000 --block 1M '"$FOHLAZU" seal --part - -o part.{#}'
refused fohlazu join --origin parts.example part.1 part.2
