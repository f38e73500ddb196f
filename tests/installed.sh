#!/usr/bin/env bash
# bash tests/installed.sh    runs what `make install` copies of the programs of `make quick`, from a folder of its own
# With no environment the programs answer; the scripts do where openssl is there. man reads the pages without a warning,
# where it is there. CHANGELOG.md, the pages and the Cargo package have the programs' version. `make uninstall` leaves
# nothing. What is wrong ends with status 1, what can't be installed with 3.
set -eu
unset CDPATH
export LC_ALL=C
top="$(cd -P -- "$(dirname -- "$(readlink -f -- "$0")")/.." && pwd)"
work="$(mktemp -d)"
trap 'rm -rf -- "$work"' EXIT
bin="$work/usr/bin"
log="$top/examples/log/monday.txt"

wrong() {
  echo "installed: $1" >&2
  exit 1
}

# Fails if a file that is to be installed is not there, or empty.
check_files() {
  while IFS= read -r file; do
    [ -s "$file" ] || wrong "$file is not there"
  done < "$work/files"
}

run_programs() {
  local found
  found="$(env -i "$bin/mmcs" sha256 2 0 check 2 < "$top/examples/items.txt")" || true
  [ "$found" = 'ok 3' ] || wrong "mmcs prints $found"

  env -i "$bin/fohlazu" seal "$log" > checkpoint
  env -i "$bin/fohlazu" prove checkpoint "$log" 3 > proof
  found="$(env -i "$bin/fohlazu" verify checkpoint proof 3)" || true
  [ "$found" = "$(sed -n 3p "$log")" ] || wrong "fohlazu prints $found"
  "$bin/fohlazu" --help | grep -q verify-consistency || wrong 'fohlazu --help does not print its commands'
}

run_scripts() {
  local vkey
  command -v openssl > /dev/null || return 0
  openssl genpkey -algorithm ed25519 -out 'a key'
  PATH="$bin:$PATH" fohlazu-daily "$log" 'its checkpoints' -k 'a key' --origin ledger.example > day
  vkey="$("$bin/fohlazu-sign" -p 'a key' ledger.example)"
  "$bin/fohlazu-open" "$vkey" < 'its checkpoints/checkpoint' > opened
  "$bin/fohlazu" seal --origin ledger.example "$log" | cmp - opened || wrong 'fohlazu-open opens another text'
}

# Fails if a file has another version than the program.
check_version() {
  version="$("$bin/fohlazu" --version)"
  version="${version#fohlazu }"
  grep -q "^## $version" "$top/CHANGELOG.md" || wrong "CHANGELOG.md has no version $version"
  grep -qx "version = \"$version\"" "$top/rust/fohlazu/Cargo.toml" || wrong 'Cargo.toml has another version'
}

check_page() {
  local page="$work/usr/share/man/man1/$1.1" said
  grep -q "\"Fohlazu $version\"" "$page" || wrong "the page of $1 has not the version $version"
  said="$(! command -v man > /dev/null || man --warnings -l "$page" 2>&1 > /dev/null)" || true
  [ -z "$said" ] || wrong "$said"
}

check_completions() {
  bash -n "$work/usr/share/bash-completion/completions/$1"
  ! command -v zsh > /dev/null || zsh -n "$work/usr/share/zsh/site-functions/_$1"
}

make -s -C "$top" install FROM=build/quick DESTDIR="$work" PREFIX=/usr > "$work/files" || exit 3
check_files

mkdir "$work/a day"
cd -- "$work/a day"
run_programs
run_scripts

check_version
for program in fohlazu mmcs; do
  check_page "$program"
  check_completions "$program"
done

make -s -C "$top" uninstall DESTDIR="$work" PREFIX=/usr
[ -z "$(find "$work/usr" -type f)" ] || wrong "make uninstall leaves $(find "$work/usr" -type f)"
echo "installed: what make install copies runs, $(wc -l < "$work/files") files"
