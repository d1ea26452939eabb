// Structured logs: one JSON object a line, on standard error unless told.

const LEVELS = ["debug", "info", "warn", "error", "silent"]

/**
 * @typedef {object} Log
 * @property {(event: string, fields?: object) => void} debug
 * @property {(event: string, fields?: object) => void} info
 * @property {(event: string, fields?: object) => void} warn
 * @property {(event: string, fields?: object) => void} error
 */

/** An error as a field of a log's line. */
export const said = error => ({error: error?.message ?? String(error), ...(error?.code !== undefined && {code: error.code})})

/**
 * Makes a log. Tokens, secrets and what documents hold are never written: a caller gives names and numbers.
 * @param {string} level the least level that is written
 * @param {(line: string) => void} write
 * @returns {Log}
 */
export function makeLog(level = "info", write = line => process.stderr.write(line)) {
  const least = LEVELS.indexOf(level)
  if (least < 0) throw new Error(`there is no level of logs ${level}`)
  const writer = (name, rank) => (event, fields = {}) => {
    if (rank >= least) write(`${JSON.stringify({time: new Date().toISOString(), level: name, event, ...fields})}\n`)
  }
  return Object.fromEntries(LEVELS.slice(0, 4).map((name, rank) => [name, writer(name, rank)]))
}
