#!/bin/sh
# Tests the server (server/test): its stores, faults of all kinds, slow readers, comments, two servers over PostgreSQL of which one is
# killed, a network that breaks off, a full disk, its start by server/run.sh, its client, and pages in a browser. What is missing (node,
# Debian's packages, PostgreSQL, the engine as a module or as a program, a browser) is said, and what needs it is left out.
# The last line is `N passed, M failed`.
# usage: tests/server.sh [--install]      with --install Debian's packages are installed where they are missing
# The variable PM_LIVE names another program than crates/pm_live/out/pm_live.

set -u

top=$(cd "$(dirname "$0")/.." && pwd) || exit 70
. "$top/server/packages.sh"
export PM_LIVE="${PM_LIVE:-$top/crates/pm_live/out/pm_live}"
log=$(mktemp) || exit 70
pages=$(mktemp) || exit 70
trap 'rm -f "$log" "$pages"' EXIT

leave_out() {
  echo "server: $1 left out, for $2"
  echo "0 passed, 0 failed"
  exit 0
}

command -v node >/dev/null 2>&1 || leave_out "all is" "node is missing"
if [ "${1-}" = --install ]; then
  get_server_packages && get_database
  have_chromium || install chromium || true
fi
has_server_packages || leave_out "all is" "one of these packages is missing: $server_packages"
[ -f "$top/bindings/js/gezhufet.wasm" ] || leave_out "all is" "the module is not built: ./pm wasm"
[ -x "$PM_LIVE" ] || echo "server: what needs the engine's own log is left out, for the program is not built: $PM_LIVE"
has_database || echo "server: PostgreSQL is left out, for the package $database_packages is missing"

# Pages and files are tested side by side, since most of the time is waiting.
"$top/server/test/pages.sh" >"$pages" 2>&1 &
timeout 1500 node --test --test-concurrency=4 --test-reporter=tap "$top"/server/test/*.test.js >"$log" 2>&1
status=$?
wait
grep -E '^ *not ok|# SKIP' "$log" | sed 's/^ */server: /'
[ "$status" -eq 0 ] || grep -vE '^ *(ok|---|\.\.\.|duration_ms|type)|^ *# Subtest' "$log" | head -n 100
sed '$d' "$pages"
passed=$(sed -n 's/^# pass \([0-9]*\)$/\1/p' "$log")
failed=$(sed -n 's/^# fail \([0-9]*\)$/\1/p' "$log")
[ "$status" -eq 0 ] || [ "${failed:-0}" -gt 0 ] || failed=1
# shellcheck disable=SC2046
set -- $(sed -n '$s/^\([0-9]*\) passed, \([0-9]*\) failed$/\1 \2/p' "$pages")
passed=$((${passed:-0} + ${1:-0}))
failed=$((${failed:-1} + ${2:-1}))
echo "$passed passed, $failed failed"
[ "$failed" -eq 0 ]
