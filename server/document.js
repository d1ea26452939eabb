// A document that is open: who watches it, what they are told, and its last entries.

import {Comments} from "./comments.js"
import {frameOf} from "./frames.js"
import {said} from "./log.js"
import {Presences} from "./presence.js"
import {textOf} from "./store/entries.js"
import {Tail} from "./tail.js"
import {Turns} from "./turns.js"

const FLEETING = "presence:"

export class Document {
  #settings
  #reading = null
  #doc = null
  #onWay = new Set()

  /**
   * @param {string} name
   * @param {{settings: import("./settings.js").Settings, engines: import("./engine.js").Engines | null, log: import("./log.js").Log}} parts
   */
  constructor(name, {settings, engines, log}) {
    this.name = name
    this.log = log
    this.engines = engines
    this.#settings = settings
    /** @type {Set<import("./connection.js").Connection>} */
    this.watchers = new Set()
    this.turns = new Turns()
    this.presences = new Presences((told, clientID) => this.tell(told, clientID), (clientID, value) => this.#tellServers(clientID, value))
    this.onEnd = () => {}
    /** Whether what keeps it has ended. */
    this.isDead = false
  }

  /** What the store is to be told of. */
  get events() {
    return {
      grown: () => { if (this.held) this.catchUp().catch(error => this.log.warn("entries-unread", {document: this.name, ...said(error)})) },
      noted: (id, value) => { this.#hear(id, value).catch(error => this.log.warn("note-lost", {document: this.name, ...said(error)})) },
      ended: error => this.onEnd(error),
    }
  }

  /** @param {import("./store/store.js").Held} held */
  begin(held) {
    this.held = held
    this.tail = new Tail(held.version, this.#settings.entriesAtHand)
    this.comments = new Comments({document: this, settings: this.#settings})
  }

  /** The number of the log's steps that watchers may be told. */
  get version() { return this.tail.version }

  // ---- what comes

  /** The engine's answer to a submission; the entries are at hand then. */
  async submit(message) {
    const done = this.held.submit(message)
    this.#onWay.add(done)
    try {
      const answer = await done
      await this.catchUp()
      return answer
    } finally {
      this.#onWay.delete(done)
    }
  }

  /** Once all that is on its way has been answered. */
  async settled() { await Promise.allSettled([...this.#onWay]) }

  /** Takes what the log has more, and tells it. One reading is under way at a time. */
  async catchUp() { while (this.#isBehind) await (this.#reading ??= this.#read()) }

  get #isBehind() { return this.tail.version < this.held.version }

  async #read() {
    try {
      const entries = await this.held.since(this.tail.version, this.#settings.messageBytes)
      if (entries.steps.length == 0) throw new Error("the store has no entries where it says it has")
      this.tail.add(entries)
      for (const watcher of this.watchers) watcher.pump()
      this.comments.grown(this.version)
    } finally {
      this.#reading = null
    }
  }

  /** The text of entries from a version on, at most to another, and the version at their end. */
  async entries(from, most = this.version) {
    const start = Math.min(from, this.version)
    if (this.tail.has(start)) return this.tail.text(start, this.#settings.messageBytes, most)
    const {clientIDs, steps, version} = await this.held.since(start, this.#settings.messageBytes), to = Math.min(version, most)
    const count = to - start
    return {text: textOf({clientIDs: clientIDs.slice(0, count), steps: steps.slice(0, count), version: to}), to}
  }

  /** Whether the log is so long, also where this server has not heard of it yet. */
  async reaches(version) {
    if (version > this.version) {
      await this.held.since(version, 1)
      await this.catchUp()
    }
    return version <= this.version
  }

  /** The document's text and version, made once for each version that is asked for. */
  async doc() {
    await this.catchUp()
    if (!this.#doc || this.#doc.version < this.version) {
      const {doc, version} = await this.held.doc()
      this.comments.begin(doc, version)
      this.#doc = {text: JSON.stringify(doc), version}
      await this.catchUp()
    }
    return this.#doc
  }

  // ---- what is told

  /** Tells all who watch, but one client, and those who read too slowly where it may be missed. */
  tell(told, clientID = null) {
    const frame = frameOf(JSON.stringify(told)), isFleeting = told.op == "presence"
    for (const watcher of this.watchers)
      if (watcher.clientID != clientID && !(isFleeting && watcher.isSlow)) watcher.send(frame)
  }

  #tellServers(clientID, presence) {
    this.held.note(FLEETING + clientID, presence, true).catch(error => this.log.debug("presence-untold", said(error)))
  }

  async #hear(id, value) {
    if (id.startsWith(FLEETING)) return this.presences.hear(id.slice(FLEETING.length), value)
    const told = await this.comments.hear(id)
    if (told) this.tell(told)
  }

  async close() {
    this.presences.end()
    await this.settled()
    await this.comments?.end()
    await this.held?.close()
  }
}
