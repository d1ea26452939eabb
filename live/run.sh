#!/bin/sh
# Starts a house of documents and a page with two ProseMirror editors over it, and says the page's address. Debian's packages are
# installed where they are missing, and the house is proved and built where it is not built. Ctrl-C ends both. The documents are kept
# in out/live/documents, and found again at the next start; not where PM_LIVE names an engine (wasm, addon), which has one document.
# usage: live/run.sh [PORT]      8080 unless told, 0 for a free one

set -eu

top=$(cd "$(dirname "$0")/.." && pwd)
. "$top/live/packages.sh"

case ${1-8080} in
  *[!0-9]* | "") echo "usage: live/run.sh [PORT]" >&2 && exit 2 ;;
esac

# shellcheck disable=SC2086
if ! have_packages && ! install $packages; then
  echo "live: node or Debian's packages of ProseMirror are missing, and could not be installed: $packages" >&2
  exit 127
fi
[ -n "${PM_LIVE-}" ] || "$top/pm" build live
case ${PM_LIVE-} in
  wasm | addon) exec node "$top/live/page/server.js" "${1-8080}" ;;
esac
mkdir -p "$top/out/live"
exec node "$top/live/page/server.js" "${1-8080}" "$top/out/live/documents"
