#!/bin/sh
# Reads the scripts and the bindings: shellcheck over sh, node --check over JavaScript, black over Python, cppcheck over C, and the
# width of lines over all of them. What is not installed is said and left out. Rattle's own files are formatted by `rt fmt`.
#
#   tests/lint.sh
#
# The last line is 'N passed, M failed', and the status is 1 where a file failed.
cd "$(dirname "$0")/.." || exit 2
wide=140
passed=0
failed=0

# check NAME FILE COMMAND..: runs the command over the file, and counts it.
check() {
  name=$1
  file=$2
  shift 2
  if said=$("$@" "$file" 2>&1); then
    passed=$((passed + 1))
  else
    failed=$((failed + 1))
    echo "lint: $name: $file"
    echo "$said" | head -n 12
  fi
}

# Lists the tracked scripts whose first line, or whose name, is of a kind; those that are not committed yet too.
files() {
  git ls-files -co --exclude-standard -- pm test .ci bench bindings examples live server tests tools | while read -r file; do
    [ -f "$file" ] || continue
    case $file in
    *.sh) kind="sh" ;;
    *.js | *.cjs) kind="js" ;;
    *.d.ts) kind="types" ;;
    *.py) kind="py" ;;
    *.c) kind="c" ;;
    *.h) kind="head" ;;
    *.*) kind= ;;
    *) kind=$(sed -n '1s/^#!.*[/ ]\(sh\|python3\)$/\1/p' "$file" 2>/dev/null | sed 's/python3/py/') ;;
    esac
    [ "$kind" != "$1" ] || echo "$file"
  done
}

# Says whether no line is wider than it may be.
is_narrow() { awk -v wide="$wide" 'length($0) > wide { print FNR ": " length($0) " columns"; bad = 1 } END { exit bad }' "$1"; }

have() {
  command -v "$1" >/dev/null 2>&1 && return
  echo "lint: $1 is not installed, so $2 is left out"
  return 1
}

if have shellcheck "sh"; then
  for file in $(files sh); do check shellcheck "$file" shellcheck -x; done
fi
if have node "JavaScript"; then
  for file in $(files js); do check "node --check" "$file" node --check; done
fi
if have black "the form of Python"; then
  for file in $(files py); do check black "$file" black -q --check -l "$wide"; done
fi
for file in $(files py); do
  check "python3" "$file" python3 -c 'import ast, sys; ast.parse(open(sys.argv[1], encoding="utf-8").read())'
done
if have cppcheck "C"; then
  for file in $(files c); do check cppcheck "$file" cppcheck -q --enable=warning,performance --error-exitcode=1; done
fi
for kind in sh js types py c head; do
  for file in $(files "$kind"); do check "width" "$file" is_narrow; done
done

echo "$passed passed, $failed failed"
[ "$failed" -eq 0 ]
