#!/usr/bin/env bash
# bash tools/build.sh programs CPU     proves the programs, and builds them for this processor, in build/CPU
# bash tools/build.sh library CPU      the same of the library for C, libfohlazu.a and libfohlazu.so
# bash tools/build.sh libraries        proves the crates of the library from nothing, and packs what proofs over them
#                                      read, with rattle-with, in build
# bash tools/build.sh package VERSION FOLDER    packs the package for Cargo into a folder, where cargo is there
# bash tools/build.sh dist VERSION LOGIC    packs a release of programs, libraries and package, in build/dist
# What is proved stays in crates/*/out: a build of programs that was stopped goes on where it was, and one for another
# processor proves no library again.
set -eu -o pipefail
umask 022
cd -P -- "$(dirname -- "$0")/.."

work="$(mktemp -d)"
trap 'rm -rf -- "$work"' EXIT
trap 'exit 130' HUP INT TERM
touch "$work/begun"

# Runs rt in the folder of a crate, and says which crate it proves.
prove() {
  local crate="$1" line now
  shift

  (cd -- "crates/$crate" && exec rt "$@") < examples/rows.txt 2>&1 | tee "$work/log" |
    while IFS= read -r line; do
      [ "${line#rt: chose --jobs }" != "$line" ] || continue
      now="${line##* }"
      echo "build: $((SECONDS / 60)) min: $now, crate $(grep -nxF "$now" <<< "$crates" | cut -d: -f1) of $total" >&2
    done || {
    cat -- "$work/log" >&2
    echo "build: $crate is not proved" >&2
    exit 1
  }
}

# Says what will be proved: the crates that the named ones stand on.
begin() {
  crates="$(sh tools/crates.sh "${@:2}")"
  total="$(wc -l <<< "$crates")"
  echo "build: $total crates, the first time for about $1 of processor time" >&2
}

# Puts a file in its place, whole. A source that changed meanwhile is newer.
put() {
  mkdir -p -- "${2%/*}"
  cp -- "$1" "$2.partial"
  touch -r "$work/begun" -- "$2.partial"
  mv -f -- "$2.partial" "$2"
}

# Packs what has this name in a folder as an archive: the same files give the same bytes.
pack() {
  ZSTD_CLEVEL=9 tar --format=gnu --sort=name "--mtime=@${SOURCE_DATE_EPOCH:-0}" --owner=0 --group=0 --numeric-owner \
    --mode=u=rwX,go=rX --dereference --auto-compress -C "$1" -cf "$3" "$2"
}

programs() {
  local crate
  begin 'one to two hours' mmcs fohlazu
  prove mmcs run "--cpu=$1" -- fold 2 0 commit
  prove fohlazu run "--cpu=$1" -- --version

  for crate in mmcs fohlazu; do
    put "crates/$crate/out/$crate" "build/$1/$crate"
  done
}

library() {
  local kit
  kit="$(dirname -- "$(rt doc)")"
  begin 'half an hour' fohlazu_c
  prove fohlazu_c lib "--cpu=$1"

  # The toolchain's layer over malloc goes into both, so that they are all that a program is linked to. Its own tools do
  # it: make needs no C compiler.
  printf '%s\n' "create $work/libfohlazu.a" 'addlib crates/fohlazu_c/out/libfohlazu_c.a' \
    "addlib $kit/c/liblibc_c.a" save end | "$kit/toolchain/bin/llvm-ar" -M
  "$kit/toolchain/bin/ld.lld" -shared -soname libfohlazu.so --whole-archive crates/fohlazu_c/out/libfohlazu_c.a \
    --no-whole-archive --exclude-libs liblibc_c.a "$kit/c/liblibc_c.a" -o "$work/libfohlazu.so"

  put "$work/libfohlazu.a" "build/$1/libfohlazu.a"
  put "$work/libfohlazu.so" "build/$1/libfohlazu.so"
}

# Of each crate the statements that a proof leaves for others, and its code, which `rt try` reads.
libraries() {
  local crate
  begin 'an hour' callers
  prove callers verdict

  for crate in $(sh tools/crates.sh p3_hashes end_to_end tlog_tree); do
    mkdir -p "$work/libraries/$crate"
    ln -s "$PWD/crates/$crate/out/rlib/$crate.rlib" "$work/libraries"
    ln -s "$PWD/crates/$crate/src" "$work/libraries/$crate"
  done

  install share/rattle-with "$work/libraries"
  pack "$work/libraries" . "$work/libraries.tar.zst"
  put "$work/libraries.tar.zst" build/libraries.tar.zst
}

# Cargo compiles what it packs over the stand-ins of rust/, which are not packed. Other names and versions of crates
# than those of the manifest would be in a lock file.
package() {
  if ! command -v cargo > /dev/null; then
    echo "build: fohlazu-$1.crate is left out: there is no cargo" >&2
    return
  fi
  (cd rust && cargo package -q --offline --allow-dirty --exclude-lockfile --target-dir "$work/cargo" -p fohlazu)
  cp -- "$work/cargo/package/fohlazu-$1.crate" "$2"
}

dist() {
  local name="fohlazu-$1-linux-x86_64" cpu program

  make -s install FROM=build/x86-64-v2 DESTDIR="$work/" PREFIX="$name" > "$work/installed"
  for program in fohlazu mmcs; do
    for cpu in x86-64-v2 x86-64-v3; do
      install -D "build/$cpu/$program" "$work/$name/libexec/fohlazu/$cpu/$program"
    done
    install share/for-this-processor "$work/$name/bin/$program"
  done
  install -m 644 LICENSE-* README.md CHANGELOG.md "$work/$name"

  rm -rf build/dist
  mkdir -p build/dist
  pack "$work" "$name" "build/dist/$name.tar.gz"
  cp -- build/libraries.tar.zst "build/dist/p3-merkle-tree-$1-rattle-$2.tar.zst"
  package "$1" build/dist
  cd build/dist
  sha256sum -- fohlazu-* p3-* | tee SHA256SUMS
}

"$@"
