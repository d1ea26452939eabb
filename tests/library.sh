#!/bin/sh
# Tests the C library and the Python package over it: each call with each bad argument, under valgrind and with the address
# sanitizer, memory refused at each allocation, threads; the same bytes for the same lines as the live authority, and as the files
# of tests/editor have for a client and those of tests/house for a house; and whole sessions, whose reports have to be those of
# `replay`.
# What is missing (the library, gcc, valgrind, python3, the built programs) is said, and what needs it is left out.
# The last line is `N passed, M failed`.
# usage: tests/library.sh [--build]      with --build a library that is missing below out/, or old, is built with nothing proved
# The variables GEZHUFET_PREFIX, PM_LIVE and PROGRAM name another folder than out/, and other programs than
# crates/pm_live/out/pm_live and crates/pm_program/out/pm_program.

set -u

top=$(cd "$(dirname "$0")/.." && pwd) || exit 70
. "$top/tests/library/prefix.sh"
live="${PM_LIVE:-$top/crates/pm_live/out/pm_live}"
program="${PROGRAM:-$top/crates/pm_program/out/pm_program}"
room=$(mktemp -d) || exit 70
trap 'rm -rf "$room"' EXIT
passed=0
failed=0

finish() {
  echo "$passed passed, $failed failed"
  [ "$failed" -eq 0 ]
  exit
}

leave_out() { echo "library: $1 left out, for $2"; }

has() { command -v "$1" >/dev/null 2>&1; }

# says NAME COMMAND..: the command has to end with status 0; what it writes is shown where it does not.
says() {
  name=$1
  shift
  if timeout 300 "$@" >"$room/log" 2>&1; then
    passed=$((passed + 1))
  else
    failed=$((failed + 1))
    echo "library: $name"
    tail -n 20 "$room/log"
  fi
}

# part NAME COMMAND..: the same of a test that counts, whose counts are added.
part() {
  name=$1
  shift
  timeout 300 "$@" >"$room/log" 2>&1
  status=$?
  # shellcheck disable=SC2046
  set -- $(sed -n 's/^\([0-9][0-9]*\) passed, \([0-9][0-9]*\) failed$/\1 \2/p' "$room/log" | tail -n 1)
  here=${2:-1}
  [ "$status" -eq 0 ] || [ "$here" -gt 0 ] || here=1
  [ "$here" -eq 0 ] || { echo "library: $name"; tail -n 20 "$room/log"; }
  passed=$((passed + ${1:-0}))
  failed=$((failed + here))
}

if ! choose_prefix "${1-}"; then
  failed=1
  echo "library: the library could not be built"
  finish
fi
if [ ! -f "$prefix/lib/libgezhufet.a" ]; then
  leave_out "all is" "the library is not built (./pm lib): $prefix/lib"
  finish
fi
if ! has gcc; then
  leave_out "all is" "gcc is missing"
  finish
fi

flags="-std=c11 -Wall -Wextra -Werror -g -pthread -I $prefix/include"
source="$top/bindings/c/test/check.c"
archive="$prefix/lib/libgezhufet.a"
wrapped="-DWRAPPED -Wl,--wrap=malloc,--wrap=calloc,--wrap=realloc"
# shellcheck disable=SC2086
says "the static library links" gcc $flags $source $archive -o "$room/static"
# shellcheck disable=SC2086
says "the shared library links" gcc $flags $source -L "$prefix/lib" -lgezhufet "-Wl,-rpath,$prefix/lib" -o "$room/shared"
# shellcheck disable=SC2086
says "memory that is refused links" gcc $flags $wrapped $source $archive -o "$room/wrapped"
# shellcheck disable=SC2086
says "the address sanitizer links" gcc $flags -fsanitize=address $source $archive -o "$room/asan"
# shellcheck disable=SC2086
says "the example links" gcc $flags "$top/bindings/c/example.c" $archive -o "$room/example"
says "the example" sh -c "'$room/example' | grep -q '^{\"confirmed\":1,'"
says "the header is C++" sh -c "echo '#include \"gezhufet.h\"' | gcc -x c++ -fsyntax-only -I '$prefix/include' -"
part "the static library" "$room/static"
part "the shared library" "$room/shared"
part "memory is refused" "$room/wrapped"
part "the address sanitizer" "$room/asan"
if has valgrind; then
  part "valgrind" valgrind -q --error-exitcode=9 --leak-check=full --errors-for-leak-kinds=all "$room/wrapped"
else
  leave_out "valgrind is" "it is missing"
fi

# plays KIND FILE WANTED: the file's lines through a talk of the kind give the bytes that are wanted. Where a line of the opening is
# missing, which a call of the library can't be without, it is left out.
plays() {
  ! grep -q '^{"fault":2,' "$3" || return 0
  timeout 300 "$room/static" play "$1" <"$2" >"$room/got"
  says "${2#"$top"/} has the same answers" cmp "$3" "$room/got"
}

for file in "$top"/tests/editor/*.in; do
  [ -f "$file" ] && plays client "$file" "${file%.in}.out"
done
for file in "$top"/tests/house/*.in; do
  plays house "$file" "${file%.in}.out"
done
if has "$live"; then
  for file in "$top"/crates/pm_live/stdin "$top"/tests/library/*.lines; do
    "$live" <"$file" >"$room/wanted" 2>/dev/null
    plays authority "$file" "$room/wanted"
  done
else
  leave_out "the same answers as the live authority's are" "it is not built: $live"
fi

if has python3; then
  export GEZHUFET_LIBRARY="$prefix/lib/libgezhufet.so"
  export PYTHONPATH="$top/bindings/python" PYTHONDONTWRITEBYTECODE=1
  part "the Python package" python3 "$top/bindings/python/test.py"
  says "the example of a server" sh -c "python3 '$top/bindings/python/example_server.py' | grep -q '^10 steps: '"
  says "the example of two clients" sh -c "python3 '$top/bindings/python/example_clients.py' | grep -q '^all the same: True'"
  if has "$program"; then
    export PROGRAM="$program"
    part "sessions through the talks" "$top/tests/library/play.py" --made 200
  else
    leave_out "sessions through the talks are" "the program is not built: $program"
  fi
else
  leave_out "the Python package is" "python3 is missing"
fi
finish
