#!/bin/sh
# Starts the server, and says its address. Debian's packages are installed where they are missing, and the engine is proved and built
# where it is not built: as a program for the store, and as a module for comments and pages. Ctrl-C stops it.
# usage: server/run.sh [--restored] [PORT]
#   8080 unless told. With --restored, after older data was put back, no editor goes on from what it had of the documents.
#   The settings are variables (docs/use/SERVER.md). Without a secret (GEZHUFET_SECRET) the server makes one, listens
#   on this machine alone, and gives anybody here a token.

set -eu

top=$(cd "$(dirname "$0")/.." && pwd)
. "$top/server/packages.sh"

words=
if [ "${1-}" = --restored ]; then
  words=$1
  shift
fi
case ${1-} in
  *[!0-9]*) echo "usage: server/run.sh [--restored] [PORT]" >&2 && exit 2 ;;
  ?*) export GEZHUFET_PORT="$1" ;;
esac

export GEZHUFET_FOLDER="${GEZHUFET_FOLDER:-$top/out/server}"

command -v node >/dev/null 2>&1 || { echo "server: node is missing (Debian: nodejs)" >&2 && exit 127; }
get_server_packages || { echo "server: a package is missing, and could not be installed: $server_packages" >&2 && exit 127; }
case ${GEZHUFET_STORE:-folder} in
postgres) get_database || { echo "server: a package is missing, and could not be installed: $database_packages" >&2 && exit 127; } ;;
folder | house) [ -n "${GEZHUFET_PROGRAM-}" ] || "$top/pm" build live ;;
esac
[ -f "$top/bindings/js/gezhufet.wasm" ] || "$top/pm" wasm || echo "server: without the module comments stay where they were made" >&2

if [ -z "${GEZHUFET_SECRET-}" ]; then
  (umask 077 && mkdir -p "$GEZHUFET_FOLDER")
  [ -s "$GEZHUFET_FOLDER/secret" ] || (umask 077 && od -An -N32 -tx1 /dev/urandom | tr -d ' \n' >"$GEZHUFET_FOLDER/secret")
  GEZHUFET_SECRET=$(cat "$GEZHUFET_FOLDER/secret")
  export GEZHUFET_SECRET GEZHUFET_OPEN="${GEZHUFET_OPEN:-1}"
  echo "server: open to all on this machine: http://127.0.0.1:${GEZHUFET_PORT:-8080}/ (Ctrl-C stops it)" >&2
fi
exec node "$top/server/main.js" ${words:+"$words"}
