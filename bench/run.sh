#!/bin/sh
# Times the program beside ProseMirror and Yjs on node, on the same inputs, and prints the tables of docs/change/BENCH.md. Each figure is
# the median of seven runs, with the least and the greatest.
# usage: bench/run.sh [PART..]      all parts unless told: see `parts`
# RUNS=N takes N runs in place of seven. PROGRAM and PM_LIVE name other builds of the programs, and GEZHUFET_PREFIX the folder of
# another build of the library; what is not named is proved and built where it is missing or older than a source. The WebAssembly
# module and the node addon are those in bindings/js; where one is missing it is built.

set -eu

here=$(cd "$(dirname "$0")" && pwd)
export NODE_PATH=/usr/share/nodejs
package=$here/../bindings/js
parts="check typing clients undos rebases edits long generated threads live house embed talk server"

# What each part runs. The sizes are such that all parts take less than twelve minutes.
part() {
  case $1 in
  check | undos | edits | long | live | house | embed | talk) node "$here/$1.js" ;;
  typing) node "$here/typing.js" 1000 10000 100000 ;;
  clients) node "$here/clients.js" 32 3000 ;;
  rebases) node "$here/rebases.js" 500 10 1 2000 10 1 2000 10 100 ;;
  generated) node "$here/generated.js" 4 2500 1 ;;
  threads) node "$here/threads.js" 32 500 ;;
  server) node "$here/server-load.js" 400 40 20 ;;
  *)
    echo "bench: the parts are: $parts" >&2
    exit 2
    ;;
  esac
}

install() {
  node -e '["prosemirror-model", "prosemirror-state", "prosemirror-transform", "yjs", "ws"].forEach(name => require(name))' 2>/dev/null &&
    [ -x /usr/bin/time ] && return
  packages="node-prosemirror-model node-prosemirror-state node-prosemirror-transform node-yjs node-ws time"
  echo "bench: installing $packages" >&2
  # shellcheck disable=SC2086
  apt-get install -y --no-install-recommends $packages >&2
}

# The program, and the library, that a part times.
need() {
  case $1 in
  live | house) [ -n "${PM_LIVE-}" ] || "$here/../pm" build live ;;
  embed)
    need live
    [ -n "${GEZHUFET_PREFIX-}" ] || "$here/../pm" lib
    [ -e "$package/gezhufet.wasm" ] || "$here/../pm" wasm
    built="${GEZHUFET_PREFIX-$here/../out}"
    [ -e "$package/addon/build/gezhufet.node" ] || "$package/addon/build.sh" "$built/lib/libgezhufet.a" "$built/include"
    ;;
  talk) [ -e "$here/../out/gezhufet.wasm" ] || "$here/../pm" wasm ;;
  server)
    need live
    [ -e "$package/gezhufet.wasm" ] || "$here/../pm" wasm
    ;;
  *) [ -n "${PROGRAM-}" ] || "$here/../pm" build ;;
  esac
}

# shellcheck disable=SC2086
[ $# -gt 0 ] || set -- $parts
install
for name; do need "$name"; done
echo "$(uname -m), $(nproc) processors, node $(node --version), $(date +%Y-%m-%d)"
first=$(date +%s)
for name; do
  start=$(date +%s)
  part "$name"
  echo "bench: $name took $(($(date +%s) - start)) s" >&2
done
echo "bench: all took $(($(date +%s) - first)) s" >&2
