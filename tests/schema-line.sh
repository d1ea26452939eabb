#!/bin/sh
# Runs tools/schema-line.js over ProseMirror's basic schema with lists, and compares the two lines with those of
# tests/schema-line/basic-with-lists.lines. Where the program is built it checks the session that begins with them.
# What is missing (node, ProseMirror's packages, the program) is said and skipped. The last line is `N passed, M failed`.
# usage: tests/schema-line.sh

set -u

top=$(cd "$(dirname "$0")/.." && pwd) || exit 70
here=$top/tests/schema-line
program=$top/crates/pm_program/out/pm_program
export NODE_PATH="${NODE_PATH:+$NODE_PATH:}/usr/share/nodejs"
passed=0
failed=0

pass() { passed=$((passed + 1)); }
fail() {
  failed=$((failed + 1))
  echo "schema-line: $1"
}
finish() {
  echo "$passed passed, $failed failed"
  [ "$failed" -eq 0 ]
  exit
}

have_prosemirror() {
  command -v node >/dev/null 2>&1 &&
    node -e 'require("prosemirror-model"); require("prosemirror-schema-basic"); require("prosemirror-schema-list")' 2>/dev/null
}

if ! have_prosemirror; then
  echo "schema-line: skipped, for node or node-prosemirror-schema-basic or node-prosemirror-schema-list is missing"
  finish
fi

work=$(mktemp -d) || exit 70
trap 'rm -rf "$work"' EXIT

# the two lines
if node "$top/tools/schema-line.js" "$here/basic-with-lists.js" >"$work/lines" &&
  cmp -s "$work/lines" "$here/basic-with-lists.lines"; then
  pass
else
  fail "the lines are not those of basic-with-lists.lines"
  diff "$here/basic-with-lists.lines" "$work/lines"
fi

# what a session file can't have is refused
if node "$top/tools/schema-line.js" "$here/ill-named.js" >"$work/ill-named" 2>"$work/told"; then
  fail "a group with a hyphen was not refused"
elif grep -q 'a group of paragraph "text-block" is not' "$work/told"; then
  pass
else
  fail "a group with a hyphen was refused by other words: $(cat "$work/told")"
fi

if [ ! -x "$program" ]; then
  echo "schema-line: the run of the program is skipped, for it is not built"
  finish
fi

# The program reads them: one op line, and as many tokens as ProseMirror says.
size=$(node -e 'console.log(require(process.argv[1]).doc.content.size)' "$here/basic-with-lists.js")
{
  cat "$work/lines"
  echo '["ann"]'
  echo '{"c":"ann","op":"text","from":1,"to":1,"text":"A "}'
} >"$work/session"
said=$("$program" check <"$work/session")
if [ "$said" = "ok 1 $size" ]; then pass; else fail "check says \`$said\` for \`ok 1 $size\`"; fi

finish
