#!/bin/sh
# Plays the examples and twenty sessions, and talks of the live authority, with one allocation refused, each in turn, and with reads
# and writes that fail or are short, by a library that stands before the C library's calls; then with bad ends of other kinds.
#
#   tests/refused-memory.sh [--short]
#
# WORDS names the words that are tried, PROGRAM the program, PM_LIVE the live authority, JOBS how many runs go side by side.
# Without PM_LIVE and what ./pm live builds, no talks are played.
# The last line is 'N passed, M failed', and the status is 1 where a run failed.
top=$(cd "$(dirname "$0")/.." && pwd) || exit 2
program=${PROGRAM:-$top/crates/pm_program/out/pm_program}
[ -x "$program" ] || { echo "refused-memory: there is no program at $program; ./pm build makes it" >&2; exit 2; }
live=${PM_LIVE:-$top/crates/pm_live/out/pm_live}
work=$(mktemp -d) || exit 2
trap 'rm -rf "$work"' EXIT
passed=0
failed=0

# Counts a run: its name, the status that came, and the status, the output and the line on standard error that are wanted.
# Of a line of usage the words are not compared.
judge() {
  told=$(sed 's/^usage: .*$/usage/' "$work/told")
  if [ "$2" = "$3" ] && [ "$(cat "$work/out")" = "$4" ] && [ "$told" = "$5" ]; then
    passed=$((passed + 1))
    return
  fi
  failed=$((failed + 1))
  echo "refused-memory: $1: status $2, wanted $3; written \`$(head -c 80 "$work/out")\`, told \`$(head -c 80 "$work/told")\`"
}

# Runs a program whose output is a pipe that nobody reads, and one whose input is a pipe that has nothing yet and doesn't block.
closed="import os, subprocess, sys; r, w = os.pipe(); os.close(r); sys.exit(subprocess.run(sys.argv[1:], stdout=w).returncode)"
waiting="import os, subprocess, sys; r, w = os.pipe(); os.set_blocking(r, False)
sys.exit(subprocess.run(sys.argv[1:], stdin=r).returncode)"

# bad_ends NAME INPUT COMMAND..: runs it with ends that take or give nothing.
bad_ends() {
  name=$1
  session=$2
  shift 2
  : >"$work/out"
  "$@" <"$session" >/dev/full 2>"$work/told"
  judge "$name to a full device" $? 4 "" "write fault"
  python3 -c "$closed" "$@" <"$session" 2>"$work/told"
  judge "$name to a closed pipe" $? 4 "" "write fault"
  "$@" <"$session" >&- 2>"$work/told"
  judge "$name to a closed output" $? 4 "" "write fault"
  "$@" <"$top" >"$work/out" 2>"$work/told"
  judge "$name of a folder" $? 3 "" "read fault"
  "$@" <&- >"$work/out" 2>"$work/told"
  judge "$name of a closed input" $? 3 "" "read fault"
  python3 -c "$waiting" "$@" >"$work/out" 2>"$work/told"
  judge "$name of an input that does not block" $? 3 "" "read fault"
  "$@" <"$session" 2>/dev/full >/dev/full
  status=$?
  : >"$work/told"
  judge "$name to full devices" $status 4 "" ""
  "$@" <"$top" >"$work/out" 2>/dev/full
  judge "$name of a folder, told to a full device" $? 3 "" ""
  "$@" <"$top" >"$work/out" 2>&-
  judge "$name of a folder, told to nobody" $? 3 "" ""
  "$@" "${2-}" <"$session" >"$work/out" 2>"$work/told"
  judge "$name with a word too many" $? 2 "" usage
}

# A number belongs to the word before it: `at 2` is one.
for word in $(echo "${WORDS:-check replay select run late at 2 rooms runrooms}" | sed 's/ \([0-9]\)/:\1/g'); do
  session=$top/examples/plan.session
  case $word in *rooms) session=$top/examples/rooms.session ;; esac
  # shellcheck disable=SC2046
  bad_ends "$word" "$session" "$program" $(echo "$word" | tr : ' ')
done
if [ -x "$live" ]; then
  bad_ends live "$top/crates/pm_live/stdin" "$live"
else
  echo "refused-memory: talks of the live authority are left out, for it is not built: $live"
fi
session=$top/examples/plan.session
"$program" <"$session" >"$work/out" 2>"$work/told"
judge "no word" $? 2 "" usage
"$program" "" <"$session" >"$work/out" 2>"$work/told"
judge "an empty word" $? 2 "" usage
"$program" "$(head -c 100000 /dev/zero | tr '\0' x)" <"$session" >"$work/out" 2>"$work/told"
judge "a long word" $? 2 "" usage
"$program" "$(printf '\377')" <"$session" >"$work/out" 2>"$work/told"
judge "a word that is no text" $? 2 "" usage
"$program" x <"$session" >"$work/out" 2>/dev/full
status=$?
: >"$work/told"
judge "an unknown word, told to a full device" $status 2 "" ""
"$program" x <"$session" >"$work/out" 2>&-
judge "an unknown word, told to nobody" $? 2 "" ""

if ! command -v gcc >/dev/null 2>&1; then
  echo "refused-memory: refused allocations and failing reads and writes are left out, for there is no gcc"
elif ! gcc -O2 -shared -fPIC -o "$work/failing.so" "$top/tests/hostile/failing.c" -ldl; then
  echo "refused-memory: tests/hostile/failing.c can't be built"
  failed=$((failed + 1))
else
  # failing.py plays sessions, and failing-talks.py talks; the counts of each are added.
  for part in failing failing-talks; do
    [ "$part" = failing ] || [ -x "$live" ] || continue
    PROGRAM=$program PM_LIVE=$live python3 -B "$top/tests/hostile/$part.py" "$work/failing.so" "$@" >"$work/log"
    sed '$d' "$work/log"
    counts=$(sed -n 's/^\([0-9]*\) passed, \([0-9]*\) failed$/\1 \2/p' "$work/log" | tail -n 1)
    here=${counts% *}
    passed=$((passed + ${here:-0}))
    here=${counts#* }
    failed=$((failed + ${here:-1}))
  done
fi
echo "$passed passed, $failed failed"
[ "$failed" -eq 0 ]
