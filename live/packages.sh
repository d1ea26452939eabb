# shellcheck shell=sh
# Debian's packages of ProseMirror, for live/run.sh and tests/live.sh, which read this file.

export NODE_PATH="${NODE_PATH:+$NODE_PATH:}/usr/share/nodejs"
packages="node-prosemirror-model node-prosemirror-transform node-prosemirror-state node-prosemirror-view"
packages="$packages node-prosemirror-schema-basic node-prosemirror-schema-list"

# Whether node and all of the packages are there.
have_packages() {
  command -v node >/dev/null 2>&1 || return 1
  for package in $packages; do
    node -e 'require.resolve(process.argv[1])' "${package#node-}" 2>/dev/null || return 1
  done
}

have_chromium() { command -v chromium >/dev/null 2>&1 || command -v chromium-browser >/dev/null 2>&1; }

# install NAME..: installs packages, and what is said goes to standard error. Node itself is left alone where it is there.
install() {
  command -v apt-get >/dev/null 2>&1 || return 1
  command -v node >/dev/null 2>&1 || set -- nodejs "$@"
  echo "live: installing $*" >&2
  timeout 600 apt-get install -y --no-install-recommends "$@" >&2 && return
  timeout 60 apt-get update >&2 && timeout 600 apt-get install -y --no-install-recommends "$@" >&2
}
