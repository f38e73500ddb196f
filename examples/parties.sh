# shellcheck shell=sh
# What the examples share; each of them sources it. They run the programs of build/, which `make` proves, or with
# BUILD=build/quick those of `make quick`, and have make build them where they are not built. FOHLAZU names another. An
# example ends with status 1 where something that has to be refused is accepted, or the other way round.
set -eu
unset CDPATH
LC_ALL=C
export LC_ALL

# Stops what an example starts: such an example defines it.
stop() {
  :
}

# Cleans up, whatever signals come meanwhile.
end() {
  trap '' HUP INT TERM
  stop
  rm -rf -- "$work"
}

here="$(cd -P -- "$(dirname -- "$0")" && pwd -P)"
top="$(dirname -- "$(dirname -- "$here")")"
work="$(mktemp -d)"
trap 'end 2> /dev/null' EXIT
# dash runs the trap of EXIT after a signal only so.
trap 'exit 130' INT
trap 'exit 143' HUP TERM
cd -- "$work"

say() {
  printf '\n# %s\n' "$*"
}

fail() {
  echo "${here##*/}: $1" >&2
  exit 1
}

# Ends with status 77 where a tool is not here. tests/examples.sh then says that the example is skipped.
needs() {
  for tool; do
    command -v "$tool" > /dev/null || {
      echo "$tool is not here" >&2
      exit 77
    }
  done
}

# So many bytes of a stream from a seed: AES-256 in counter mode, whose key is the SHA-256 of the seed.
stream() {
  key="$(printf '%s' "$1" | openssl dgst -sha256 -r | cut -c 1-64)"
  head -c "$2" /dev/zero | openssl enc -aes-256-ctr -K "$key" -iv 00000000000000000000000000000000
}

# Runs a command, and says how long it took by the clock.
timed() {
  what="$1"
  shift
  since="$(date +%s%N)"
  "$@"
  echo "time: $what: $((($(date +%s%N) - since) / 1000000)) ms"
}

# The program of files, which is built where it is not.
if [ -z "${FOHLAZU-}" ]; then
  FOHLAZU="$top/${BUILD:-build}/fohlazu"
  make -s -C "$top" "${BUILD:-build}/fohlazu" >&2 || exit 3
fi
export FOHLAZU
fohlazu() {
  command "$FOHLAZU" "$@"
}

# Runs a command that has to end with this status and print nothing, and shows what it says.
ends() {
  wanted="$1"
  shift
  status=0
  "$@" > printed 2> said || status=$?
  cat -- said
  [ "$status" -eq "$wanted" ] || fail "status $status, and not $wanted, of: $*"
  [ ! -s printed ] || fail "something is printed by: $*"
}

# Runs a command that has to be refused, and shows why it is.
refused() {
  ends 1 "$@"
}
