#!/usr/bin/env bash
# bash tools/quick.sh FOLDER PROGRAM..    compiles programs with no proof, optimized, side by side, into FOLDER
# `rt try` compiles a crate and those below it at -O0 under a sanitizer, runs the program and deletes it. Here it runs
# from a folder of links to the kit, whose clang compiles at -O2 with no sanitizer, and whose linker leaves out the
# sanitizer's archive and copies what it links. Tests of indices, overflow and `prove!` stay in.
# The status is 1 where a source is refused, 3 where the kit calls its tools otherwise.
set -eu -o pipefail
cd -P -- "$(dirname -- "$0")/.."
folder="$1"
shift
kit="$(dirname -- "$(rt doc)")"
work="$(mktemp -d)"

# Stops what still compiles, and cleans up.
end() {
  # shellcheck disable=SC2046 # each process is an argument
  kill $(jobs -p) 2> /dev/null || true
  wait
  rm -rf -- "$work"
}
trap end EXIT
trap 'exit 130' HUP INT TERM
echo "quick: compiles $# programs with no proof, for two minutes" >&2

# Lays out the folder of links. rt finds its kit by where its own file lies; `rattle` would look for reserved names.
lay_out() {
  mkdir -p "$1/bin" "$1/toolchain/bin"
  cp -- "$kit/bin/rt" "$kit/bin/rtlib.py" "$1/bin/"
  printf '#!/bin/sh\n' > "$1/bin/rattle"
  cat > "$1/toolchain/bin/clang" << END
#!/bin/sh
for a do
  shift
  case "\$a" in -O0) a=-O2 found=1 ;; -fsanitize=address) continue ;; esac
  set -- "\$@" "\$a"
done
[ -n "\$found" ] && exec "$kit/toolchain/bin/clang" "\$@"
END
  cat > "$1/toolchain/bin/ld.lld" << END
#!/bin/sh
for a do
  shift
  case "\$a" in
    --whole-archive) drop=1 found=1 ;;
    --no-whole-archive) drop= ;;
    *) [ -n "\$drop" ] || set -- "\$@" "\$a" ;;
  esac
done
[ -n "\$found" ] && "$kit/toolchain/bin/ld.lld" "\$@" && cp program "$1/made"
END

  chmod +x "$1/bin/rattle" "$1/toolchain/bin/clang" "$1/toolchain/bin/ld.lld"
  for file in "$kit"/* "$kit"/bin/* "$kit"/toolchain/* "$kit"/toolchain/bin/*; do
    [ -e "$1/${file#"$kit/"}" ] || ln -s -- "$file" "$1/${file#"$kit/"}"
  done
}

# With no words a program says how it is used, and ends with status 2. With no input a program of cases ends with 0.
answers() {
  "$1" > /dev/null 2>&1 < /dev/null || [ "$?" -eq 2 ]
}

# Side by side, each by a folder of links of its own.
jobs=()
for program; do
  lay_out "$work/$program"
  (cd -- "crates/$program" && exec "$work/$program/bin/rt" try --steps 1 --seconds 60 -- no-such-command) \
    < /dev/null > "$work/$program/said" 2>&1 &
  jobs+=("$!")
done
mkdir -p -- "$folder"

for program; do
  status=0
  wait "${jobs[0]}" || status=$?
  [ "$status" -lt 128 ] || exit 130
  jobs=("${jobs[@]:1}")

  made="$work/$program/made"
  if ! [ -f "$made" ] || ! answers "$made"; then
    echo "quick: $program was not compiled" >&2
    ! grep -E '^error|\.rt:[0-9]+' "$work/$program/said" >&2 || exit 1
    echo "quick: the kit in $kit calls its tools otherwise" >&2
    exit 3
  fi

  # A source that changed meanwhile is newer.
  touch -r "$work" -- "$made"
  cp -p -- "$made" "$folder/.$program"
  mv -f -- "$folder/.$program" "$folder/$program"
done
