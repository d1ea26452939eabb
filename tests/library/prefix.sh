# shellcheck shell=sh
# Which build of the C library is tested: tests/library.sh and tests/wasm.sh read this file, with `top` set.

# is_old FILE [FOLDER]: whether the file is missing, or older than a source of the library or what the folder has.
is_old() {
  [ -e "$1" ] || return 0
  # shellcheck disable=SC2154
  [ -n "$(find "$top/crates.txt" "$top/bindings/c" "$top"/crates/pm_*/src ${2+"$2"} -newer "$1" -print | head -n 1)" ]
}

# Sets `prefix`, below which the library lies: the folder that GEZHUFET_PREFIX names, or out/. With the word --build, and neither the
# variable nor a library of these sources below out/, one is built with nothing proved.
choose_prefix() {
  prefix="${GEZHUFET_PREFIX:-$top/out}"
  [ "$1" = --build ] && [ -z "${GEZHUFET_PREFIX-}" ] && is_old "$prefix/lib/libgezhufet.a" || return 0
  echo "the library below out/ is missing or old: what is tested is one with nothing proved"
  "$top/pm" try lib || return
  prefix="$top/out/unproved"
}
