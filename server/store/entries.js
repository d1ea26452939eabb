// Entries of a log, as the engine writes them: they are kept and sent on as texts, and nobody here reads them.

import {storeFails} from "../errors.js"

/**
 * Entries that stand one after the other: the JSON of their clients' IDs and of their steps, and the version at their end.
 * @typedef {{clientIDs: string[], steps: string[], version: number}} Entries
 */

const [QUOTE, BACKSLASH, COMMA, OPEN_LIST, CLOSE_LIST, OPEN_OBJECT, CLOSE_OBJECT] = [..."\"\\,[]{}"].map(it => it.charCodeAt(0))
const [IDS, STEPS, VERSION] = ['{"clientIDs":[', '],"steps":[', '],"version":']

/** An answer to `doc`. It has a fault where there was no memory for it. */
export function whole(answer) {
  if (answer.fault === undefined) return answer
  throw storeFails(new Error(`the engine answers with the fault ${answer.fault}`))
}

// Where a text of JSON that begins at a place ends.
function endOfText(json, start) {
  let at = start + 1
  for (; at < json.length && json.charCodeAt(at) != QUOTE; at++) if (json.charCodeAt(at) == BACKSLASH) at++
  return at
}

// The texts of the items of a list, from behind its bracket on, and where that ends.
function itemsFrom(json, start) {
  const items = []
  let [levels, from, at] = [0, start, start]
  for (; levels >= 0 && at < json.length; at++) {
    const letter = json.charCodeAt(at)
    if (letter == QUOTE) at = endOfText(json, at)
    else if (letter == OPEN_LIST || letter == OPEN_OBJECT) levels++
    else if (letter == CLOSE_LIST || letter == CLOSE_OBJECT) levels--
    if (at > start && (levels < 0 || (levels == 0 && letter == COMMA))) {
      items.push(json.slice(from, at))
      from = at + 1
    }
  }
  return {items, end: at - 1}
}

/**
 * The entries of an answer to `since`, whose JSON is compact with its keys in order. It has a fault where there was no memory for it.
 * @param {string} json
 * @returns {Entries}
 */
export function entriesIn(json) {
  if (!json.startsWith(IDS)) throw storeFails(new Error(`the engine answers with ${json.slice(0, 100)}`))
  const ids = itemsFrom(json, IDS.length), steps = itemsFrom(json, ids.end + STEPS.length)
  return {clientIDs: ids.items, steps: steps.items, version: Number(json.slice(steps.end + VERSION.length, -1))}
}

/** The JSON of entries, as the engine writes it. */
export const textOf = ({clientIDs, steps, version}) => `${IDS}${clientIDs.join(",")}${STEPS}${steps.join(",")}${VERSION}${version}}`

/** Those of entries from a version on; null where that is before them, or past their end. */
export function back({clientIDs, steps, version}, from) {
  const count = from - (version - steps.length)
  if (count < 0 || from > version) return null
  return count == 0 ? {clientIDs, steps, version} : {clientIDs: clientIDs.slice(count), steps: steps.slice(count), version}
}

/**
 * The front of entries that has at most so many bytes of JSON, one entry at least.
 * @param {Entries} entries
 * @param {number} bytes
 */
export function front(entries, bytes) {
  const {clientIDs, steps, version} = entries, first = version - steps.length
  let [count, size] = [0, 0]
  while (count < steps.length) {
    size += Buffer.byteLength(steps[count]) + Buffer.byteLength(clientIDs[count]) + 2
    if (size > bytes && count > 0) break
    count++
  }
  return count == steps.length ? entries : {clientIDs: clientIDs.slice(0, count), steps: steps.slice(0, count), version: first + count}
}
