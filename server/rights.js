// What a request may do with a document, by the hook of access.

import {checkName} from "./documents.js"
import {Refusal} from "./errors.js"
import {isUser} from "./tokens.js"

/**
 * What the hook gives, or a Refusal where that is no right. The name is looked at first.
 * @param {import("./server.js").Parts} server
 * @param {{request: import("node:http").IncomingMessage, token: string | null, document: string}} asked
 * @returns {Promise<import("./access.js").Given>}
 */
export async function rightOf({access, settings}, asked) {
  checkName(asked.document)
  const given = await access({...asked, secrets: settings.secret})
  if (!given) throw new Refusal("token", "the token is none, was changed or has expired")
  if (given.right != "read" && given.right != "write") throw new Refusal("access", "you have no right to this document")
  if (!isUser(given.user)) throw new Error("the hook of access gives no user")
  return given
}
