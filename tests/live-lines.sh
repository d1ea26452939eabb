#!/bin/sh
# Tests what the live authority writes for lines, and the status with which it ends (docs/use/LIVE.md).
# The last line is `N passed, M failed`.
# usage: tests/live-lines.sh PROGRAM

set -u

program=$1
top=$(cd "$(dirname "$0")/.." && pwd) || exit 70
schema=$(sed -n 1p "$top/crates/pm_live/stdin")
doc=$(sed -n 2p "$top/crates/pm_live/stdin")
opened='{"size":4,"version":0}'
since='{"op":"since","version":0}'
entries='{"clientIDs":[],"steps":[],"version":0}'
passed=0
failed=0

# says NAME STATUS TEXT: compares what was written and the status, as `said` has them, with those that are wanted.
says() {
  wanted=$(printf '%s' "$3" && echo "status $2")
  if [ "$said" = "$wanted" ]; then
    passed=$((passed + 1))
  else
    failed=$((failed + 1))
    echo "live: $1: $said"
  fi
}

# run WORD..: runs the program on standard input.
run() {
  # shellcheck disable=SC2086
  $program "$@" 2>/dev/null
  echo "status $?"
}

lf='
'
said=$(run <"$top/crates/pm_live/stdin")
says "each line has its answer" 0 "$(cat "$top/crates/pm_live/stdout")$lf"
said=$(printf '%s\n%s\n%s' "$schema" "$doc" "$since" | run)
says "a last line without LF is a line" 0 "$opened$lf$entries$lf"
said=$(printf '' | run)
says "line 1 is missing" 1 "{\"fault\":2,\"line\":1}$lf"
said=$(printf '%s\n' "$schema" | run)
says "line 2 is missing" 1 "{\"fault\":2,\"line\":2}$lf"
said=$(printf '{}\nnull\n' | run)
says "line 1 has a fault" 1 "{\"fault\":6,\"line\":1}$lf"
said=$(printf '\n' | run)
says "line 1 is empty" 1 "{\"fault\":5,\"line\":1}$lf"
said=$(printf '%s\n' "$schema" '{"type":"paragraph"}' '{"op":"doc"}' | run)
says "line 2 has a fault" 1 "{\"fault\":16,\"line\":2}$lf"
# A line of 1,048,576 bytes is read; one that is longer by a byte is passed over, and the next is answered.
said=$(printf '%s\n%s\n%-1048576s\n%-1048577s\n%s\n' "$schema" "$doc" "$since" "$since" "$since" | run)
says "a line is too long" 0 "$opened$lf$entries$lf{\"fault\":3}$lf$entries$lf"
# A submission has a limit of work: here a mark over three tokens, which is 4, and two letters, 2 each. A wrong ID is a fault before it.
mark='{"stepType":"addMark","from":0,"to":3,"mark":{"type":"em"}}'
letter='{"stepType":"replace","from":1,"to":1,"slice":{"content":[{"type":"text","text":"x"}]}}'
submit='{"op":"submit","version":%s,"clientID":1,"steps":[%s]}\n'
marked=$(printf '%s' "$schema" | sed 's/}$/,"marks":[{"name":"em"}]}/')
# shellcheck disable=SC2059
said=$(printf "%s\\n%s\\n$submit$submit$submit$submit%s\\n%s\\n" "$marked" "$doc" 0 "$mark,$letter" 9 "$mark,$letter" 0 "$mark" \
  1 "$letter,$letter" "{}" '{"op":"submit","version":3}' | run work 4)
says "a submission is too much work" 0 "$opened$lf{\"limit\":4}$lf{\"limit\":4}$lf\
{\"accepted\":{\"count\":1,\"from\":0}}$lf{\"accepted\":{\"count\":2,\"from\":1}}$lf{\"fault\":6}$lf{\"fault\":6}$lf"
# A gap's tokens are of the range, and a range past the document and one that is turned round count all the same.
around='{"stepType":"replaceAround","from":0,"to":4,"gapFrom":1,"gapTo":3,"insert":1,"slice":{"content":[{"type":"paragraph"}]}}'
past='{"stepType":"replace","from":0,"to":9}'
turned='{"stepType":"replace","from":9,"to":0}'
# shellcheck disable=SC2059
said=$(printf "%s\\n%s\\n$submit$submit$submit$submit" "$schema" "$doc" 0 "$around" 0 "$past" 0 "$turned,$around" 0 "$turned" | run work 7)
says "the work of a gap and of ranges that are none" 0 "$opened$lf{\"accepted\":{\"count\":1,\"from\":0}}$lf{\"limit\":7}$lf\
{\"limit\":7}$lf{\"version\":1}$lf"
said=$(run work 4x </dev/null)
says "a limit that is no number" 2 ""
said=$(run work +4 </dev/null)
says "a limit with a sign" 2 ""
said=$(run work 18446744073709551616 </dev/null)
says "a limit past 64 bits" 2 ""
said=$(run work 18446744073709551615 </dev/null)
says "the greatest limit" 1 "{\"fault\":2,\"line\":1}$lf"
said=$(run work </dev/null)
says "a limit is missing" 2 ""
# The limit is no part of the file: what came under another is taken up.
kept=$(mktemp -d) || exit 70
# shellcheck disable=SC2059
said=$(printf "%s\\n%s\\n$submit$submit" "$schema" "$doc" 0 "$letter,$letter" 2 "$letter,$letter,$letter" | run work 4 new "$kept/log")
says "a limit over a new file" 0 "$opened$lf{\"accepted\":{\"count\":2,\"from\":0}}$lf{\"limit\":4}$lf"
# shellcheck disable=SC2059
said=$(printf "$submit$submit" 2 "$letter" 2 "" | run work 1 open "$kept/log")
says "a smaller limit over the same file" 0 "{\"size\":6,\"version\":2}$lf{\"limit\":1}$lf{\"accepted\":{\"count\":0,\"from\":2}}$lf"
# shellcheck disable=SC2059
said=$(printf "$submit" 2 "$letter,$letter,$letter" | run open "$kept/log")
says "no limit over the same file" 0 "{\"size\":6,\"version\":2}$lf{\"accepted\":{\"count\":3,\"from\":2}}$lf"
rm -rf "$kept"
# An ID has at most 1,024 bytes, its quotes counted.
long=$(printf '%01022d' 0)
ids='{"op":"submit","version":0,"clientID":"%s","steps":[]}\n'
# shellcheck disable=SC2059
said=$(printf "%s\\n%s\\n$ids$ids" "$schema" "$doc" "$long" "0$long" | run)
says "an ID is too long" 0 "$opened$lf{\"accepted\":{\"count\":0,\"from\":0}}$lf{\"fault\":19}$lf"
taken='{"op":"submit","version":0,"clientID":1,"steps":[{"stepType":"replace","from":1,"to":2},{"stepType":"replace","from":1,"to":2}]}'
step='{"from":1,"stepType":"replace","to":2}'
said=$(printf '%s\n' "$schema" "$doc" "$taken" '{"op":"since","version":0,"most":1}' '{"op":"since","version":1,"most":4294967295}' \
  '{"op":"since","version":1,"most":0}' '{"op":"since","version":7,"most":1}' '{"op":"since","version":0,"most":null}' \
  '{"op":"since","version":0,"most":-1}' | run)
says "so many entries at most" 0 "$opened$lf{\"accepted\":{\"count\":2,\"from\":0}}$lf\
{\"clientIDs\":[1],\"steps\":[$step],\"version\":1}$lf{\"clientIDs\":[1],\"steps\":[$step],\"version\":2}$lf\
{\"clientIDs\":[],\"steps\":[],\"version\":1}$lf{\"clientIDs\":[],\"steps\":[],\"version\":2}$lf\
{\"clientIDs\":[1,1],\"steps\":[$step,$step],\"version\":2}$lf{\"fault\":6}$lf"
said=$(run live </dev/null)
says "there are words" 2 ""
said=$(run </)
says "a read fails" 3 ""
# shellcheck disable=SC2086
said=$($program <"$top/crates/pm_live/stdin" >/dev/full 2>/dev/null; echo "status $?")
says "a write fails" 4 ""

echo "$passed passed, $failed failed"
[ "$failed" -eq 0 ]
