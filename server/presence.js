// Who is at a document, and where their cursors are. A cursor is told with the version of the log in whose document its places are: who
// hears of it carries it on from there.

const COLORS = ["#c2410c", "#0369a1", "#15803d", "#7e22ce", "#be123c", "#0f766e", "#a16207", "#4338ca"]

/** The pause between two tellings, and how long someone at another server is taken to be there, in milliseconds. */
const PAUSE = 100
const LASTS = 45_000

/**
 * @typedef {object} Presence
 * @property {string} clientID
 * @property {string} name
 * @property {string} color
 * @property {number} [version]
 * @property {number} [anchor]
 * @property {number} [head]
 */

/** A name that somebody says, without what would break a line; empty where it is none. */
export const nameOf = text => (typeof text == "string" ? text.replace(/\p{C}/gu, "").trim().slice(0, 64) : "")

/** A colour for a client: what it asks for, or one of some. */
export function colorOf(asked, clientID) {
  if (typeof asked == "string" && /^#[0-9a-fA-F]{6}$/.test(asked)) return asked
  const sum = [...clientID].reduce((total, letter) => (31 * total + letter.charCodeAt(0)) % 65_521, 7)
  return COLORS[sum % COLORS.length]
}

export class Presences {
  #here = new Map()
  #elsewhere = new Map()
  #fresh = new Set()
  #timer = null
  #tell
  #tellServers

  /**
   * @param {(told: object, clientID: string) => void} tell tells all here but the client itself
   * @param {(id: string, value: object | undefined) => void} tellServers
   */
  constructor(tell, tellServers) {
    this.#tell = tell
    this.#tellServers = tellServers
  }

  /** Who is there, but for one client. */
  list(clientID) {
    const elsewhere = [...this.#elsewhere.values()].map(it => it.presence)
    return [...this.#here.values(), ...elsewhere].filter(it => it.clientID != clientID).map(it => ({op: "presence", ...it}))
  }

  /** @param {Presence} presence of a client of this server */
  set(presence) {
    this.#here.set(presence.clientID, presence)
    this.#elsewhere.delete(presence.clientID)
    this.#fresh.add(presence.clientID)
    this.#timer ??= setTimeout(() => this.#flush(), PAUSE)
  }

  leave(clientID) {
    if (!this.#here.delete(clientID)) return
    this.#fresh.delete(clientID)
    this.#tell({op: "left", clientID}, clientID)
    this.#tellServers(clientID, undefined)
  }

  #flush() {
    this.#timer = null
    for (const clientID of this.#fresh) {
      const presence = this.#here.get(clientID)
      this.#tell({op: "presence", ...presence}, clientID)
      this.#tellServers(clientID, presence)
    }
    this.#fresh.clear()
  }

  /** Another server tells of one of its clients. */
  hear(clientID, presence) {
    if (this.#here.has(clientID)) return
    if (!presence) {
      if (this.#elsewhere.delete(clientID)) this.#tell({op: "left", clientID}, clientID)
      return
    }
    this.#elsewhere.set(clientID, {presence, heard: Date.now()})
    this.#tell({op: "presence", ...presence}, clientID)
  }

  /** Tells the other servers again who is here, and forgets who was not heard of for long. */
  beat(now = Date.now()) {
    for (const [clientID, presence] of this.#here) this.#tellServers(clientID, presence)
    for (const [clientID, {heard}] of this.#elsewhere) if (now - heard > LASTS) this.hear(clientID, undefined)
  }

  end() { clearTimeout(this.#timer) }
}
