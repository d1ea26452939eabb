#!/bin/sh
# Plays a session of eight clients, two of them raw, and the plan of the examples many times under `run`, and compares each
# report with the one that `replay` writes of the file whose lines are put in the order that was printed. They have to be
# equal but for the numbers of the lines, which `run` takes from the file as it was.
#
#   tests/orders.sh [RUNS [PROGRAM]]        RUNS, of each of the two sessions, is 200 where it is absent
#
# The last line is 'N passed, M failed', and the status is 1 where a run failed. How many orders came is said before.
top=$(cd "$(dirname "$0")/.." && pwd) || exit 2
runs=${1:-200}
program=${2:-$top/crates/pm_program/out/pm_program}
[ -x "$program" ] || { echo "orders: there is no program at $program; ./pm build makes it" >&2; exit 2; }
work=$(mktemp -d) || exit 2
trap 'rm -rf "$work"' EXIT
passed=0
failed=0

# Puts the op lines of the session in the printed order. It fails where the order has not each line once, or not a client's
# lines in their order.
put_in_order() {
  awk 'NR == FNR { for (i = 2; i <= NF; i++) place[i - 1] = $i; count = NF - 1; next }
    { text[FNR] = $0; last = FNR; match($0, /"c":"[a-z0-9]*"/); client[FNR] = substr($0, RSTART, RLENGTH) }
    END {
      if (count != last - 3) exit 1
      for (i = 1; i <= 3; i++) print text[i]
      for (i = 1; i <= count; i++) {
        n = place[i] + 0
        if (!(n in text) || n < 4 || used[n]++ || n < latest[client[n]]) exit 1
        latest[client[n]] = n
        print text[n]
      }
    }' "$work/order" "$session"
}

# Gives the outcomes of a replay the numbers of the printed order, and sorts them by these.
renumber() {
  awk 'NR == FNR { for (i = 2; i <= NF; i++) number[i + 2] = $i; count = NF - 1; next }
    FNR <= count { $1 = number[$1] } { print }' "$work/order" "$work/replayed" >"$work/numbered"
  count=$(($(wc -w <"$work/order") - 1))
  head -n "$count" "$work/numbered" | sort -n
  tail -n +"$((count + 1))" "$work/numbered"
}

# Plays the session once, and says what is wrong.
play() {
  "$program" run <"$session" >"$work/ran" 2>/dev/null || { echo "status $?"; return; }
  head -n 1 "$work/ran" >"$work/order"
  tail -n +2 "$work/ran" >"$work/got"
  grep -q '^order\( [0-9]*\)*$' "$work/order" || { echo "no order"; return; }
  put_in_order >"$work/ordered" || { echo "the order is none of the file"; return; }
  "$program" replay <"$work/ordered" >"$work/replayed" || { echo "replay: status $?"; return; }
  renumber >"$work/wanted"
  diff "$work/wanted" "$work/got" | head -n 4 | cut -c 1-160
}

for session in "$top/tests/orders/eight-clients" "$top/examples/plan.session"; do
  : >"$work/orders"
  turn=0
  while [ "$turn" -lt "$runs" ]; do
    turn=$((turn + 1))
    : >"$work/order"
    said=$(play)
    cat "$work/order" >>"$work/orders"
    if [ -z "$said" ]; then
      passed=$((passed + 1))
    else
      failed=$((failed + 1))
      echo "orders: ${session#"$top"/}, run $turn: $said"
    fi
  done
  echo "orders: ${session#"$top"/}: $(sort -u "$work/orders" | grep -c '') orders in $runs runs"
done

echo "$passed passed, $failed failed"
[ "$failed" -eq 0 ]
