#!/bin/sh
# Plays cut sessions and talks of the live authority, and inputs one below, at and one above each limit. tests/hostile/cuts.py and
# talk-cuts.py say how they are judged.
#
#   tests/cuts.sh [--short]
#
# WORDS names the words that are tried, PROGRAM the program, PM_LIVE the live authority, JOBS how many runs go side by side.
# Without PM_LIVE and what ./pm live builds, no talks are played.
# The last line is 'N passed, M failed', and the status is 1 where a run failed.
top=$(cd "$(dirname "$0")/.." && pwd) || exit 2
export PM_LIVE="${PM_LIVE:-$top/crates/pm_live/out/pm_live}"
log=$(mktemp) || exit 2
trap 'rm -f "$log"' EXIT
passed=0
failed=0

# part NAME WORD..: runs a part, shows what it says, and adds the counts that it ends with.
part() {
  python3 -B "$top/tests/hostile/$1.py" "$2" >"$log"
  sed '$d' "$log"
  counts=$(sed -n 's/^\([0-9]*\) passed, \([0-9]*\) failed$/\1 \2/p' "$log" | tail -n 1)
  here=${counts% *}
  passed=$((passed + ${here:-0}))
  here=${counts#* }
  failed=$((failed + ${here:-1}))
}

part cuts "${1-}"
# shellcheck disable=SC2086
if command -v ${PM_LIVE%% *} >/dev/null 2>&1; then
  part talk-cuts "${1-}"
else
  echo "cuts: talks of the live authority are left out, for it is not built: $PM_LIVE"
fi
echo "$passed passed, $failed failed"
[ "$failed" -eq 0 ]
