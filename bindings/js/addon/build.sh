#!/bin/sh
# Builds the node addon over the C library, which `./pm lib` makes, into bindings/js/addon/build. The package then takes it in place of
# the WebAssembly module. It needs gcc or clang, and node's headers (Debian: libnode-dev).
# usage: bindings/js/addon/build.sh [LIBRARY [INCLUDE]]      the static library and the folder of gezhufet.h, out/lib and out/include
# of the tree unless told; the variables CC, CFLAGS and NODE_INCLUDE name another compiler, its flags and the folder of node_api.h

set -eu

here=$(cd "$(dirname "$0")" && pwd)
top=$(cd "$here/../../.." && pwd)
library=${1-$top/out/lib/libgezhufet.a}
include=${2-$top/out/include}
headers=${NODE_INCLUDE-/usr/include/node}

if [ ! -e "$library" ]; then
  echo "addon: $library is not built; ./pm lib builds it" >&2
  exit 1
fi
if [ ! -e "$headers/node_api.h" ]; then
  echo "addon: node's headers are missing: $headers/node_api.h" >&2
  exit 127
fi
mkdir -p "$here/build"
# shellcheck disable=SC2086
"${CC-cc}" -std=c11 -Wall -Wextra -O2 -fPIC -fvisibility=hidden ${CFLAGS-} -I"$headers" -I"$include" -shared \
  "$here/addon.c" "$library" -Wl,--exclude-libs,ALL -o "$here/build/gezhufet.node.part"
mv "$here/build/gezhufet.node.part" "$here/build/gezhufet.node"
