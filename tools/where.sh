#!/usr/bin/env bash
# bash tools/where.sh NAME..  prints where functions of these names stand, and the folders of their proofs: one without
#                             a folder is proved by search. Where no function has a name, the status is 1.
set -eu
unset CDPATH
cd -P -- "$(dirname -- "$(readlink -f -- "$0")")/.."
[ "$#" -gt 0 ] || {
  echo 'usage: bash tools/where.sh NAME..' >&2
  exit 2
}

status=0
for name; do
  grep -rnE --include='*.rt' "\bfn $name\b" crates/*/src || {
    echo "where: there is no function $name" >&2
    status=1
  }
  find crates/*/proofs -type d \( -name "$name" -o -name "+$name" \)
done
exit "$status"
