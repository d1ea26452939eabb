// Messages as they come, which may be anything.

export const isCount = value => Number.isSafeInteger(value) && value >= 0

/** Versions have 32 bits. */
export const isVersion = value => isCount(value) && value < 2 ** 32

/** The engine reads nothing that nests so deep, and what nests much deeper can't be written again. */
const MOST_LEVELS = 500

const [QUOTE, BACKSLASH, OPEN_LIST, CLOSE_LIST, OPEN_OBJECT, CLOSE_OBJECT] = [..."\"\\[]{}"].map(it => it.charCodeAt(0))

// Whether lists and objects nest deeper than they may, in a text that is JSON or not.
function isDeep(data) {
  let [levels, isText] = [0, false]
  for (let i = 0; i < data.length; i++) {
    const byte = data[i]
    if (isText) {
      if (byte == BACKSLASH) i++
      else if (byte == QUOTE) isText = false
    } else if (byte == QUOTE) isText = true
    else if (byte == OPEN_LIST || byte == OPEN_OBJECT) levels++
    else if (byte == CLOSE_LIST || byte == CLOSE_OBJECT) levels--
    if (levels > MOST_LEVELS) return true
  }
  return false
}

/**
 * The JSON object that a message is, or null where it is none.
 * @param {Buffer} data
 * @returns {Record<string, any> | null}
 */
export function readMessage(data) {
  if (data.length > MOST_LEVELS && isDeep(data)) return null
  try {
    const value = JSON.parse(data)
    return typeof value == "object" && value !== null && !Array.isArray(value) ? value : null
  } catch {
    return null
  }
}
