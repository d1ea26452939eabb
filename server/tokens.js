// Tokens, by which a user is known, and tickets, by which a client keeps its ID when it connects again. Both are signed with a secret
// (HMAC, SHA-256), so that a server knows its own and those of servers with the same secret.

import {createHmac, randomBytes, timingSafeEqual} from "node:crypto"

const USER = /^[A-Za-z0-9_.@-]{1,64}$/

export const isUser = user => typeof user == "string" && USER.test(user)

const seal = (secret, kind, body) => createHmac("sha256", secret).update(`${kind}.${body}`).digest("base64url")

function isSealed(secret, kind, body, given) {
  const made = Buffer.from(seal(secret, kind, body)), told = Buffer.from(given)
  return made.length == told.length && timingSafeEqual(made, told)
}

function sign(secret, kind, claims) {
  const body = Buffer.from(JSON.stringify(claims)).toString("base64url")
  return `${body}.${seal(secret, kind, body)}`
}

// What a text claims, or null where none of the secrets has signed it.
function verify(secrets, kind, text) {
  if (typeof text != "string" || text.length > 4096) return null
  const [body, given, ...more] = text.split(".")
  if (!body || !given || more.length) return null
  if (!secrets.some(secret => isSealed(secret, kind, body, given))) return null
  try {
    return JSON.parse(Buffer.from(body, "base64url").toString("utf8"))
  } catch {
    return null
  }
}

/**
 * @typedef {object} Claims
 * @property {string} user 1 to 64 characters A-Z a-z 0-9 _ . @ -
 * @property {string} [name] what others see
 * @property {Record<string, "read" | "write">} documents the right to each, by its name; `*` is any other
 * @property {number} expires milliseconds since 1970
 */

/**
 * A token for a user.
 * @param {string} secret
 * @param {Claims} claims
 */
export function signToken(secret, {user, name, documents, expires}) {
  if (!isUser(user)) throw new Error("a user is 1 to 64 characters A-Z a-z 0-9 _ . @ -")
  if (!Number.isSafeInteger(expires)) throw new Error("a token has an end, in milliseconds since 1970")
  return sign(secret, "token", {user, name, documents, expires})
}

/**
 * What a token claims, or null where it is none, is changed or has expired.
 * @param {string[]} secrets each may have signed it
 * @param {unknown} token
 * @returns {Claims | null}
 */
export function verifyToken(secrets, token, now = Date.now()) {
  const claims = verify(secrets, "token", token)
  const isOne = claims && isUser(claims.user) && typeof claims.documents == "object" && claims.documents !== null
  return isOne && claims.expires > now ? claims : null
}

/** A new ID of a user's client. */
export const newClientID = user => `${user}~${randomBytes(9).toString("base64url")}`

/**
 * A ticket for a client of a document.
 * @param {string} secret
 * @param {{document: string, user: string, clientID: string}} of
 */
export const signTicket = (secret, {document, user, clientID}, now = Date.now()) =>
  sign(secret, "ticket", {document, user, clientID, made: now})

/**
 * The client's ID of a ticket, or null where it is none of this document and user, or is too old.
 * @param {string[]} secrets
 * @param {unknown} ticket
 * @param {{document: string, user: string, days: number}} of
 */
export function clientOf(secrets, ticket, {document, user, days}, now = Date.now()) {
  const claims = verify(secrets, "ticket", ticket)
  if (!claims || claims.document !== document || claims.user !== user) return null
  return now - claims.made < days * 86_400_000 ? claims.clientID : null
}
