#!/usr/bin/env bash
# bash tests/gate.sh    the gate without the documents; `make check` calls it
#
# `cargo test` tries the package in rust/, in seconds. `rt ci` proves every crate from nothing, tries the edits, and
# runs tests and programs. It leaves the programs that it proved in crates/*/out: these run commands, stored cases and
# calls, with each request for memory refused, too. At the end stands how many processor minutes all took. The first
# part that fails ends it, with that part's status.
set -euo pipefail
cd "$(dirname "$0")/.."

# Prints the processor minutes of everything that this shell has run. In a pipe, `times` would tell those of the pipe's
# own shell.
print_minutes() {
  times > "$used"
  awk '
    { for (i = 1; i <= NF; i++) { split($i, parts, /[ms]/); seconds += 60 * parts[1] + parts[2] } }
    END { printf "gate: %d processor minutes\n", seconds / 60 + 0.5 }' "$used"
  rm -f -- "$used"
}
used="$(mktemp)"
trap print_minutes EXIT

python3 tests/cargo.py quick
rt ci
python3 tests/programs
python3 tests/memory gate
