// From which pages the server is used. A program that is no browser says no origin.

const LOCAL = new Set(["localhost", "127.0.0.1", "[::1]"])

/**
 * Whether a request comes from a page that may: one of the server's own, or of an origin of the settings; `*` is any. A server that is
 * open to all takes only names of this machine for its own, which no other page can have.
 * @param {import("node:http").IncomingMessage} request
 * @param {import("./settings.js").Settings} settings
 */
export function isFromOwn({headers: {origin, host}}, {origins, open}) {
  if (open && !isLocal(host)) return false
  if (origin === undefined || origins.includes("*") || origins.includes(origin)) return true
  return URL.canParse(origin) && new URL(origin).host === host
}

const isLocal = host => URL.canParse(`http://${host}`) && LOCAL.has(new URL(`http://${host}`).hostname)
