# shellcheck shell=sh
# Debian's packages that the server, its page and its tests use, for server/run.sh and tests/server.sh, which read this file. `top` is
# the repository.

# shellcheck disable=SC2154
. "$top/live/packages.sh"
# (those of ProseMirror are for the page)
server_packages="node-ws $packages"
database_packages="node-pg"
extracted="${GEZHUFET_PACKAGES:-$top/out/packages}"
export NODE_PATH="$NODE_PATH:$extracted/usr/share/nodejs"

# has NAME..: whether node finds the packages.
has() {
  node -e 'for (const name of process.argv.slice(1)) require.resolve(name.replace(/^node-/, ""))' "$@" 2>/dev/null
}

# shellcheck disable=SC2086
has_server_packages() { has $server_packages; }

has_database() { has "$database_packages"; }

# shellcheck disable=SC2086
get_server_packages() { get $server_packages; }

get_database() { get "$database_packages"; }

# get NAME..: installs packages that are missing. Where Debian's node is not the one that is here, which its packages ask for, they are
# taken as they are, beside the system. What is said goes to standard error.
get() {
  has "$@" && return
  command -v apt-get >/dev/null 2>&1 || return 1
  for name; do
    has "$name" && continue
    echo "server: installing $name" >&2
    timeout 600 apt-get install -y --no-install-recommends "$name" >/dev/null 2>&1 && has "$name" && continue
    extract "$name" || return 1
  done
}

# extract NAME: takes a package, and those of node that it needs, into a folder of their own.
extract() {
  mkdir -p "$extracted/archives" || return 1
  rest="--no-recommends --no-suggests --no-conflicts --no-breaks --no-replaces --no-enhances"
  # shellcheck disable=SC2086
  needed=$(apt-cache depends --recurse $rest "$1" 2>/dev/null | grep '^node-' | sort -u)
  for each in $needed; do
    (cd "$extracted/archives" && timeout 100 apt-get download "$each" >/dev/null 2>&1)
  done
  for archive in "$extracted/archives"/*.deb; do
    [ ! -f "$archive" ] || dpkg-deb -x "$archive" "$extracted" || return 1
  done
  has "$1"
}
