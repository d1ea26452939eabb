#!/bin/sh
# Tests the live authority by lines (tests/live-lines.sh), its client (live/client.js), a house of many documents and the page
# (live/page): editors of ProseMirror's own libraries work over the built program. What is missing (node, ProseMirror's packages, the
# program, Chromium) is said, and what needs it is left out.
# The last line is `N passed, M failed`.
# usage: tests/live.sh [--install]      with --install Debian's packages are installed where they are missing
# The variable PM_LIVE names another program than crates/pm_live/out/pm_live.

set -u

top=$(cd "$(dirname "$0")/.." && pwd) || exit 70
. "$top/live/packages.sh"
export PM_LIVE="${PM_LIVE:-$top/crates/pm_live/out/pm_live}"
log=$(mktemp) || exit 70
trap 'rm -f "$log"' EXIT
passed=0
failed=0

finish() {
  echo "$passed passed, $failed failed"
  [ "$failed" -eq 0 ]
  exit
}

leave_out() { echo "live: $1 left out, for $2"; }

# part WORDS..: runs a test with a limit of time, and adds the counts that it ends with.
part() {
  timeout 300 "$@" >"$log" 2>&1
  status=$?
  cat "$log"
  # shellcheck disable=SC2046
  set -- $(sed -n 's/^\([0-9][0-9]*\) passed, \([0-9][0-9]*\) failed$/\1 \2/p' "$log" | tail -n 1)
  here=${2:-1}
  [ "$status" -eq 0 ] || [ "$here" -gt 0 ] || here=1
  passed=$((passed + ${1:-0}))
  failed=$((failed + here))
}

if [ "${1-}" = --install ]; then
  # shellcheck disable=SC2086
  have_packages || install $packages || true
  have_chromium || install chromium || true
fi

# shellcheck disable=SC2086
if command -v ${PM_LIVE%% *} >/dev/null 2>&1; then
  part "$top/tests/live-lines.sh" "$PM_LIVE"
  part "$top/tests/house-lines.sh" "$PM_LIVE"
else
  leave_out "what the program writes is" "it is not built: $PM_LIVE"
fi

if ! have_packages; then
  leave_out "all is" "node or one of these packages is missing: $packages"
  finish
fi
part node "$top/live/editor-test.js"
if have_chromium; then part node "$top/live/page/local-test.js"; else leave_out "the page without a server is" "chromium is missing"; fi

# shellcheck disable=SC2086
if ! command -v ${PM_LIVE%% *} >/dev/null 2>&1; then
  leave_out "the editors and the page are" "the program is not built: $PM_LIVE"
  finish
fi
part node "$top/live/test.js"
part node "$top/live/house-test.js"

if have_chromium; then part node "$top/live/page/test.js"; else leave_out "the page is" "chromium is missing"; fi
finish
