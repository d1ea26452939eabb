#!/bin/sh
# Tests what a house of many documents writes for lines (docs/use/HOUSE.md): the talks of tests/house/, and its limits.
# The last line is `N passed, M failed`.
# usage: tests/house-lines.sh PROGRAM

set -u

program=$1
top=$(cd "$(dirname "$0")/.." && pwd) || exit 70
got=$(mktemp) || exit 70
wanted=$(mktemp) || exit 70
trap 'rm -f "$got" "$wanted"' EXIT
passed=0
failed=0

# judge NAME STATUS FILE: compares what was written with the file, and the status with 0.
judge() {
  if [ "$2" = 0 ] && cmp -s "$got" "$3"; then
    passed=$((passed + 1))
    return
  fi
  failed=$((failed + 1))
  echo "house: $1: status $2"
  diff "$3" "$got" | head -n 4 | cut -c 1-160
}

for talk in "$top"/tests/house/*.in; do
  # shellcheck disable=SC2086
  $program many <"$talk" >"$got" 2>/dev/null
  judge "$(basename "$talk" .in)" $? "${talk%.in}.out"
done

# One schema and one document more than there is room for.
schema='{"nodes":[{"name":"doc","content":"text*"},{"name":"text"}]}'
named() { seq "$1" | sed "s/.*/{\"op\":\"schema\",\"name\":\"s&\",\"schema\":$schema}/"; }
opened() { seq "$1" | sed 's/.*/{"op":"open","in":"d&","schema":"s1","doc":null}/'; }
{
  seq 1024 | sed 's/.*/{"schema":"s&"}/'
  echo '{"none":"room"}'
  seq 65536 | sed 's/.*/{"size":0,"version":0}/'
  echo '{"none":"room"}'
  echo '{"documents":65536,"entries":0,"schemas":1024,"tokens":0}'
  echo '{"closed":"d7"}'
  echo '{"size":0,"version":0}'
} >"$wanted"
# shellcheck disable=SC2086
{
  named 1025
  opened 65537
  echo '{"op":"statistics"}'
  echo '{"op":"close","in":"d7"}'
  echo '{"op":"open","in":"d65537","schema":"s1","doc":null}'
} | $program many >"$got" 2>/dev/null
judge "there is room for so many" $? "$wanted"

# A submission has a limit of work: a letter is 2, and two letters are 4. What is no submission to an open document has none.
letter='{"stepType":"replace","from":0,"to":0,"slice":{"content":[{"type":"text","text":"x"}]}}'
submit() { echo "{\"op\":\"submit\",\"in\":\"$1\",\"version\":$2,\"clientID\":1,\"steps\":[$3]}"; }
folder=$(mktemp -d) || exit 70
{
  echo '{"schema":"s1"}'
  echo '{"size":0,"version":0}'
  echo '{"limit":3}'
  echo '{"accepted":{"count":1,"from":0}}'
  echo '{"none":"document"}'
  echo '{"version":1}'
  echo '{"limit":3}'
} >"$wanted"
# shellcheck disable=SC2086
{
  named 1
  opened 1
  submit d1 0 "$letter,$letter"
  submit d1 0 "$letter"
  submit d2 0 "$letter,$letter"
  submit d1 0 "$letter"
  submit d1 9 "$letter,$letter"
} | tee "$folder/lines" | $program work 3 many >"$got" 2>/dev/null
judge "a submission is too much work" $? "$wanted"
# shellcheck disable=SC2086
$program work 3 many new "$folder/log" <"$folder/lines" >"$got" 2>/dev/null
judge "a submission is too much work, over a file" $? "$wanted"
{
  echo '{"documents":1,"entries":1,"schemas":1,"tokens":1}'
  echo '{"limit":1}'
} >"$wanted"
# shellcheck disable=SC2086
submit d1 1 "$letter" | $program work 1 many open "$folder/log" >"$got" 2>/dev/null
judge "the file knows of no limit" $? "$wanted"
rm -rf "$folder"

echo "$passed passed, $failed failed"
[ "$failed" -eq 0 ]
