// Who may: a page to be replaced where a team knows its users otherwise (GEZHUFET_ACCESS names another file). As it stands here, a token
// that one of the secrets has signed says what its user may.

import {verifyToken} from "./tokens.js"

/**
 * @typedef {object} Asked
 * @property {import("node:http").IncomingMessage} request with its headers, as cookies
 * @property {string | null} token as the client gave it
 * @property {string} document the document's name
 * @property {string[]} secrets the setting
 *
 * @typedef {object} Given
 * @property {"none" | "read" | "write"} right
 * @property {string} user 1 to 64 characters A-Z a-z 0-9 _ . @ -; limits count by it, and clients' IDs begin with it
 * @property {string} [name] what others see; where there is none the client may say it
 * @property {number} [expires] when to ask again, in milliseconds since 1970
 */

/**
 * Null where nobody is known by the request.
 * @param {Asked} asked
 * @returns {Given | null | Promise<Given | null>}
 */
export function access({token, document, secrets}) {
  const claims = verifyToken(secrets, token)
  if (!claims) return null
  const {user, name, documents, expires} = claims
  const told = Object.hasOwn(documents, document) ? documents[document] : documents["*"]
  return {right: told == "read" || told == "write" ? told : "none", user, name, expires}
}
