// Editors at one document, from their start until all agree.

import {agree} from "./agree.js"
import {Editor} from "./editor.js"

/** Limits that tests do not meet. */
export const many = {messageBurst: 5_000, messagesPerSecond: 5_000, connectionsPerUser: 100}

export async function editorsAt(addresses, document, count) {
  const editors = [...Array(count).keys()].map(i => new Editor(addresses, document, `user${i}_`, {seed: 7 * i + 3, at: i}))
  await Promise.all(editors.map(it => it.start()))
  return editors
}

export async function finish(addresses, document, editors) {
  await Promise.all(editors.map(it => it.settled()))
  const log = await agree(addresses, document, editors)
  for (const editor of editors) editor.end()
  return log
}
