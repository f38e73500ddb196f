#!/usr/bin/env bash
# bash tests/examples.sh [--write]    runs each example of examples/ with no proof, and compares what it prints with the
#                                     output that is stored beside it; --write stores it
# `make quick` compiles the programs where they are not built. An example that fails, as where something that has to be
# refused is accepted, or that prints something else, ends with status 1; where a program cannot be compiled it ends
# with status 3. One that ends with status 77, since the machine lacks a tool, is skipped. What begins with 'time: ' is
# not compared.
set -eu
unset CDPATH
cd -P -- "$(dirname -- "$(readlink -f -- "$0")")/.."
make -s quick || exit 3

export FOHLAZU="$PWD/build/quick/fohlazu"
work="$(mktemp -d)"
trap 'rm -rf -- "$work"' EXIT

count=0
skipped=0
status=0
for example in examples/*/run.sh; do
  folder="${example%/run.sh}"
  stored="$folder/printed"
  ended=0
  sh "$example" > "$work/printed" 2>&1 < /dev/null || ended=$?
  count=$((count + 1))

  if [ "$ended" -eq 77 ]; then
    skipped=$((skipped + 1))
    echo "examples: $folder is skipped: $(tail -n 1 "$work/printed")"
  elif [ "${1-}" = --write ]; then
    cp -- "$work/printed" "$stored"
  elif [ "$ended" -ne 0 ] || ! diff -I '^time: ' "$stored" "$work/printed"; then
    echo "examples: $example ends with status $ended, or prints something else" >&2
    status=1
  fi
done

[ "$status" -ne 0 ] || echo "examples: $count exchanges print what is stored, but for $skipped that are skipped"
exit "$status"
