#!/bin/sh
# Tests the demo page by keys in a headless Chromium (pages.js). What is missing (node, packages, Chromium, the engine's module) is said,
# and all is left out. The last line is `N passed, M failed`.
# usage: server/test/pages.sh [PICTURE]

set -u

top=$(cd "$(dirname "$0")/../.." && pwd) || exit 70
. "$top/live/packages.sh"

leave_out() {
  echo "pages: left out, for $1"
  echo "0 passed, 0 failed"
  exit
}

have_packages || leave_out "node or one of these packages is missing: $packages"
node -e 'require.resolve("ws")' 2>/dev/null || leave_out "the package node-ws is missing"
have_chromium || leave_out "chromium is missing"
[ -e "${WASM:-$top/bindings/js/gezhufet.wasm}" ] || leave_out "the engine's module is not built (./pm wasm)"

said=$(mktemp) || exit 70
trap 'rm -f "$said"' EXIT
# (a busy machine has its time)
PATIENCE=180000 timeout 1500 nice -n 10 node "$top/server/test/pages.js" "$@" >"$said" 2>&1
status=$?
cat "$said"
[ "$status" -ne 124 ] || echo "pages: not done in 1500 s"
tail -n 1 "$said" | grep -q '^[0-9]* passed, [0-9]* failed$' || echo "0 passed, 1 failed"
exit $status
