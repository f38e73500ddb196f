#!/usr/bin/env bash
# bash tests/edits/run.sh [CRATE..]    tries the wrong bodies of tests/edits/CRATE, or of all crates there, on a copy
#
# The checker must refuse each. The gate leaves them out, since each crate takes a second check. The edits in must-fail/
# of these crates are tried, too. Crates below that are proved already are taken from their out/, others are proved
# first.
# An edit that is not refused ends with status 1, wrong words with 2; where there is no toolchain it ends with status 3.
set -eu
cd -P -- "$(dirname -- "$0")/../.."
command -v rt > /dev/null || { echo 'edits: the command rt of the Rattle toolchain is not on the PATH' >&2; exit 3; }
if [ "$#" -eq 0 ]; then
  set -- tests/edits/*/
  set -- "${@%/}"
  set -- "${@##*/}"
fi
copy="$(mktemp -d)"
trap 'rm -rf -- "$copy"' EXIT
tar -cf - --exclude=out crates crates.txt HANDLES | tar -xf - -C "$copy"
# rt takes a proved library only if it is of these very sources.
for below in $(sh tools/crates.sh "$@"); do
  proved="crates/$below/out/rlib"
  [ ! -d "$proved" ] || { mkdir -p "$copy/crates/$below/out" && cp -R -- "$proved" "$copy/$proved"; }
done
for crate; do
  edits="$copy/crates/$crate/must-fail"
  [ ! -d "tests/edits/$crate" ] || { mkdir -p "$edits" && cp "tests/edits/$crate"/*.edit "$edits"; }
  [ -d "$edits" ] || { echo "usage: bash tests/edits/run.sh [CRATE..]: $crate has no edits" >&2; exit 2; }
done
cd "$copy"
rt must-fail "$@"
