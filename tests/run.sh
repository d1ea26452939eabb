#!/bin/sh
# Plays the sessions of tests/sessions/ and examples/ by the built program, and compares report and status.
#
#   tests/run.sh [PROGRAM]
#
# A case is NAME.session with NAME.out, the bytes that are wanted. NAME.words holds the words (else: replay), and
# NAME.status the exit status (else: 0). A failed case is told with the first line that differs.
# The last line is 'N passed, M failed', and the status is 1 where a case failed.
top=$(cd "$(dirname "$0")/.." && pwd) || exit 2
program=${1:-$top/crates/pm_program/out/pm_program}
[ -x "$program" ] || { echo "tests: there is no program at $program; ./pm build makes it" >&2; exit 2; }
got=$(mktemp) || exit 2
trap 'rm -f "$got"' EXIT
passed=0
failed=0

# Counts a case: its name, the status that came and the one that is wanted, and the file of the wanted output.
judge() {
  if [ "$2" = "$3" ] && cmp -s "$got" "$4"; then
    passed=$((passed + 1))
    return
  fi
  failed=$((failed + 1))
  echo "tests: ${1#"$top"/}: status $2, wanted $3"
  diff "$4" "$got" | head -n 4 | cut -c 1-160
}

for session in "$top"/tests/sessions/*/*.session "$top"/examples/*.session; do
  name=${session%.session}
  words=replay
  [ -f "$name.words" ] && words=$(cat "$name.words")
  status=0
  [ -f "$name.status" ] && status=$(cat "$name.status")
  # The words of a case are parted by blanks.
  # shellcheck disable=SC2086
  "$program" $words <"$session" >"$got" 2>/dev/null
  judge "$session" $? "$status" "$name.out"
done

# Inputs at a limit are made here, since they are large: one byte more than an input may have, one op line more than a
# session, an op line that is one byte too long and one that is not, and documents of as many tokens as one may have in each
# version.
wanted=$(mktemp) || exit 2
large=$(mktemp) || exit 2
whole=$(mktemp) || exit 2
trap 'rm -f "$got" "$wanted" "$large" "$whole"' EXIT
head=$top/examples/first.session

# Counts a large input: its name, the word, the status and the first line of the output that are wanted.
limit() {
  echo "$4" >"$wanted"
  "$program" "$2" <"$large" >"$whole" 2>/dev/null
  status=$?
  head -n 1 "$whole" >"$got"
  judge "$1" "$status" "$3" "$wanted"
}
filled() { head -c "$1" /dev/zero | tr '\0' "$2"; }
# A paragraph of so many letters, and a step that puts one more in.
letters() {
  head -n 1 "$head"
  printf '{"content":[{"content":[{"text":"%s","type":"text"}],"type":"paragraph"}],"type":"doc"}\n["a"]\n' "$(filled "$1" x)"
  echo '{"c":"a","op":"step","step":{"from":1,"slice":{"content":[{"text":"y","type":"text"}]},"stepType":"replace","to":1}}'
}
filled 67108865 ' ' >"$large"
limit "an input of one byte too many" check 1 "refused 0 1"
{ head -n 3 "$head" && yes '{"c":"ann","op":"push"}' | head -n 100001; } >"$large"
limit "an op line too many" check 1 "refused 100004 4"
{ head -n 3 "$head" && filled 1048577 ' '; } >"$large"
limit "an op line too long" check 1 "refused 4 3"
{ head -n 3 "$head" && filled 1048576 ' '; } >"$large"
limit "an op line of blanks" check 1 "refused 4 5"
# The same of a file of two rooms, whose op lines are counted together.
rooms() {
  echo '["x","y"]'
  head -n 3 "$head"
  head -n 3 "$head"
}
{ rooms && yes '{"c":"ann","op":"push","room":"x"}' | head -n 50000 && yes '{"c":"ann","op":"push","room":"y"}' | head -n 50001; } >"$large"
limit "an op line of rooms too many" rooms 1 "refused 100008 4"
{ rooms && filled 1048577 ' '; } >"$large"
limit "an op line of rooms too long" rooms 1 "refused 8 3"
filled 67108865 ' ' >"$large"
limit "an input of rooms of one byte too many" rooms 1 "refused 0 1"
letters 499997 >"$large"
limit "a step that fills the document" replay 0 "4 made 1"
letters 499998 >"$large"
limit "a step that makes the document too large" replay 0 "4 refused 0 7"
letters 499999 >"$large"
limit "a first document that is too large" check 1 "refused 2 16"
# The same of version 2, and of documents of both versions that are only counted.
sized() {
  letters "$2" | sed "1s/^{/{\"version\":$1,/" | head -n "$3"
}
counted() {
  sized "$1" "$2" 3 >"$large"
  limit "a document of $2 letters in version $1" check "$3" "$4"
}
counted 1 499998 0 "ok 0 500000"
counted 1 600000 1 "refused 2 16"
counted 2 600000 0 "ok 0 600002"
counted 2 999998 0 "ok 0 1000000"
counted 2 999999 1 "refused 2 16"
sized 2 999997 4 >"$large"
limit "a step that fills a document of version 2" replay 0 "4 made 1"
sized 2 999998 4 >"$large"
limit "a step that makes a document of version 2 too large" replay 0 "4 refused 0 7"

# The document after so many steps of a log of 130 letters, each put in front. `at` goes on from the nearest of each 64 versions.
{ letters 1 && yes "$(letters 1 | tail -n 1)" | head -n 129; } >"$large"
version() {
  "$program" at "$1" <"$large" >"$got" 2>/dev/null
  judge "version $1 of 130" $? 0 "$wanted"
}
for n in 0 1 63 64 65 127 128 130; do
  text=$(filled "$n" y)x
  printf 'at %d {"content":[{"content":[{"text":"%s","type":"text"}],"type":"paragraph"}],"type":"doc"}\n' "$n" "$text" >"$wanted"
  version "$n"
done
echo "past 130" >"$wanted"
version 131

# A large session that is made from a number: its summary begins so, and a second run writes the same bytes.
printf 'gen 4 2500 1\nlines 10000\n' >"$wanted"
"$program" gen 4 2500 1 </dev/null >"$whole" 2>/dev/null
status=$?
head -n 2 "$whole" >"$got"
judge "a large generated session" "$status" 0 "$wanted"
"$program" gen 4 2500 1 </dev/null >"$got" 2>/dev/null
judge "a large generated session again" $? 0 "$whole"

echo "$passed passed, $failed failed"
[ "$failed" -eq 0 ]
