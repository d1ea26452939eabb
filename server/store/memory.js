// Documents that nothing keeps: for tests, and to look at the server.

import {firstDocument} from "../engine.js"
import {front, whole} from "./entries.js"
import {newEpoch} from "./epochs.js"
import {valueOf} from "./notes.js"

class MemoryDocument {
  #first
  #events = null

  constructor(authority, {schemaName, schema, doc}) {
    this.authority = authority
    this.schemaName = schemaName
    this.schema = schema
    this.epoch = newEpoch()
    this.notes = new Map()
    this.#first = doc
  }

  hold(events) {
    this.#events = events
    return this
  }

  get version() { return this.authority.version }

  async submit(message) {
    const answer = this.authority.submit(message)
    if (answer.accepted) this.#events?.grown(this.version)
    return answer
  }

  async since(version, bytes) { return front(this.authority.since(version), bytes) }

  async doc(isFirst = false) { return isFirst ? {doc: this.#first, version: 0} : whole(this.authority.doc()) }

  async note(id, value, isFleeting = false) {
    if (isFleeting) return undefined
    const now = valueOf(value, this.notes.get(id))
    if (now === undefined) this.notes.delete(id)
    else this.notes.set(id, now)
    return now
  }

  async close() { this.#events = null }
}

/** @implements {import("./store.js").Store} */
export class MemoryStore {
  #documents = new Map()
  #engines
  #program

  constructor({program}, {engines}) {
    this.#engines = engines
    this.#program = program
  }

  async start() {}

  async open(name, first, events) {
    if (!this.#documents.has(name)) {
      if (!first) return null
      const doc = await firstDocument(first.schema, first.doc, {engines: this.#engines, program: this.#program})
      const authority = await this.#engines.authority(first.schema, doc)
      this.#documents.set(name, new MemoryDocument(authority, {...first, doc}))
    }
    return this.#documents.get(name).hold(events)
  }

  async check() {}

  async renew() {}

  async end() {
    for (const {authority} of this.#documents.values()) authority.close()
    this.#documents.clear()
  }
}
