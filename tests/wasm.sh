#!/bin/sh
# Tests the engine as a WebAssembly module, and the JavaScript package over it: the heap by itself, the package by its own tests, the
# same answers as the program pm_live for each file of lines in tests/live and tests/library and for random sessions, and editors of
# ProseMirror's over it; and of a house, which the node addon alone has, the answers that the files of tests/house have, and editors. What
# is missing (gcc, node, ProseMirror's packages, the built program or module) is said, and what needs it is left out.
# The last line is `N passed, M failed`.
# usage: tests/wasm.sh [--build]      with --build Debian's binaryen and node's headers are installed where they are missing, and the module
# that is missing, or old, is built with nothing proved, and so is the C library for the node addon
# The variables PM_LIVE and GEZHUFET_PREFIX name another program than crates/pm_live/out/pm_live and another folder than out/, which has
# the C library.

set -u

top=$(cd "$(dirname "$0")/.." && pwd) || exit 70
. "$top/live/packages.sh"
. "$top/tests/library/prefix.sh"
native="${PM_LIVE:-$top/crates/pm_live/out/pm_live}"
package=$top/bindings/js
headers=${NODE_INCLUDE-/usr/include/node}
work=$(mktemp -d) || exit 70
trap 'rm -rf "$work"' EXIT
passed=0
failed=0

leave_out() { echo "wasm: $1 left out, for $2"; }

finish() {
  echo "$passed passed, $failed failed"
  [ "$failed" -eq 0 ]
  exit
}

# judge WHAT WORDS..: whether a command ends with status 0.
judge() {
  what=$1
  shift
  if timeout 300 "$@" >"$work/said" 2>&1; then
    passed=$((passed + 1))
  else
    failed=$((failed + 1))
    echo "wasm: $what"
    tail -n 20 "$work/said"
  fi
}

# ---- the C: the heap and the arithmetic, with what looks for undefined behaviour, and under valgrind

flags="-std=c11 -O1 -g -fno-strict-aliasing -fno-builtin -Wall -Wextra"
if command -v gcc >/dev/null 2>&1; then
  for name in heap arithmetic; do
    # shellcheck disable=SC2086
    judge "$name-test.c does not compile" gcc $flags "$top/tools/wasm/$name-test.c" -o "$work/$name"
    judge "$name.c" "$work/$name"
    strict="-fsanitize=address,undefined -fno-sanitize-recover"
    # shellcheck disable=SC2086
    if gcc $flags $strict "$top/tools/wasm/$name-test.c" -o "$work/$name-strict" 2>/dev/null; then
      judge "$name.c with sanitizers" "$work/$name-strict" 20000 2
    else
      leave_out "$name.c with sanitizers is" "gcc has none"
    fi
  done
  if command -v valgrind >/dev/null 2>&1; then
    judge "heap.c under valgrind" valgrind -q --error-exitcode=3 "$work/heap" 300 3
  else
    leave_out "heap.c under valgrind is" "valgrind is missing"
  fi
else
  leave_out "what the C does is" "gcc is missing"
fi

# ---- what is built

# Builds the module and the addon over the library, as far as what they are made with is there.
build_all() {
  command -v wasm-opt >/dev/null 2>&1 || install binaryen || true
  [ -e "$headers/node_api.h" ] || install libnode-dev || true
  if command -v wasm-opt >/dev/null 2>&1 && is_old "$package/gezhufet.wasm" "$top/tools/wasm"; then
    judge_build "the module" "$top/pm" try wasm
  fi
  command -v gcc >/dev/null 2>&1 && [ -e "$headers/node_api.h" ] || return 0
  judge_build "the library" choose_prefix --build
  judge_build "the addon" "$package/addon/build.sh" "$prefix/lib/libgezhufet.a" "$prefix/include"
}

judge_build() {
  what=$1
  shift
  "$@" && return
  failed=$((failed + 1))
  echo "wasm: $what could not be built"
}

[ "${1-}" != --build ] || build_all

# ---- the package

if ! command -v node >/dev/null 2>&1; then
  leave_out "all else is" "node is missing"
  finish
fi
if [ ! -e "$package/gezhufet.wasm" ]; then
  if command -v wasm-opt >/dev/null 2>&1; then why="it is not built (./pm wasm)"; else why="it is not built, and binaryen is missing"; fi
  leave_out "what the module does is" "$why"
fi
[ -e "$package/addon/build/gezhufet.node" ] || leave_out "what the node addon does is" "it is not built (bindings/js/addon/build.sh)"
timeout 500 node --test "$package/test/" >"$work/tests" 2>&1
here=$(sed -n 's/^# pass //p' "$work/tests")
bad=$(sed -n 's/^# fail //p' "$work/tests")
[ "${bad:-1}" -eq 0 ] || grep -E -A 12 '^ *not ok' "$work/tests"
passed=$((passed + ${here:-0}))
failed=$((failed + ${bad:-1}))

# ---- the same answers as the program

# same KIND FILE: compares what the engine writes for a file of lines, and its status, with the program's.
same() {
  # shellcheck disable=SC2086
  $native <"$2" >"$work/wanted" 2>/dev/null
  wanted=$?
  node "$top/tests/wasm/lines.js" "$1" <"$2" >"$work/came"
  came=$?
  if [ "$came" -eq "$wanted" ] && cmp -s "$work/wanted" "$work/came"; then
    passed=$((passed + 1))
  else
    failed=$((failed + 1))
    echo "wasm: $1 answers $2 otherwise than the program: status $came for $wanted"
    diff "$work/wanted" "$work/came" | head -n 4 | cut -c 1-300
  fi
}

engines=
[ ! -e "$package/gezhufet.wasm" ] || engines=wasm
[ ! -e "$package/addon/build/gezhufet.node" ] || engines="$engines addon"
[ -n "$engines" ] || finish

# Of these the answers are known without the program.
for kind in $engines; do
  node "$top/tests/wasm/lines.js" "$kind" <"$top/crates/pm_live/stdin" >"$work/came"
  judge "$kind answers crates/pm_live/stdin otherwise than its stdout" cmp "$work/came" "$top/crates/pm_live/stdout"
  # The module has no house.
  [ "$kind" = addon ] || continue
  for file in "$top"/tests/house/*.in; do
    node "$top/tests/wasm/lines.js" "$kind" many <"$file" >"$work/came"
    judge "$kind answers ${file#"$top"/} otherwise than its .out" cmp "$work/came" "${file%.in}.out"
  done
done

# shellcheck disable=SC2086
if command -v ${native%% *} >/dev/null 2>&1; then
  if have_packages; then
    for seed in 1 2 3; do
      node "$top/tests/wasm/session.js" 400 "$seed" >"$work/random-$seed.lines"
    done
  else
    leave_out "random sessions are" "one of these packages is missing: $packages"
  fi
  for kind in $engines; do
    for file in "$top"/tests/live/*.lines "$top"/tests/library/*.lines "$work"/random-*.lines; do
      [ ! -e "$file" ] || same "$kind" "$file"
    done
  done
else
  leave_out "the comparison with the program is" "it is not built: $native"
fi

# ---- editors in this process

if have_packages; then
  for kind in $engines; do
    judge "editors over $kind" env PM_LIVE="$kind" node "$top/live/test.js" 10000 5
    tail -n 3 "$work/said"
    [ "$kind" = addon ] || continue
    judge "a house over $kind" env PM_LIVE="$kind" node "$top/live/house-test.js" 1000 5
    tail -n 3 "$work/said"
  done
else
  leave_out "editors are" "one of these packages is missing: $packages"
fi
finish
