// Documents in one folder, each in the engine's own log: a process of `pm live` for each that is held.

import {firstDocument} from "../engine.js"
import {storeFails} from "../errors.js"
import {Files, MADE} from "./files.js"
import {begun, LiveDocument} from "./live-document.js"

class FolderDocument extends LiveDocument {
  constructor(parts, events) {
    super(parts, events)
    this.live.ended.then(end => this.ended(end))
  }

  async doc(isFirst = false) { return isFirst ? {doc: this.made.doc, version: 0} : this.docAt() }

  async letGo() { await this.live.close() }
}

/** @implements {import("./store.js").Store} */
export class FolderStore {
  #files
  #program
  #engines
  #log

  constructor({folder, program}, {engines, log}) {
    this.#files = new Files(folder, log)
    this.#program = program
    this.#engines = engines
    this.#log = log
  }

  start() { return this.#files.start(false) }

  async open(name, first, events) {
    const log = this.#files.log(name)
    try {
      const isThere = await this.#files.has(log)
      if (!isThere && !first) return null
      const notes = await this.#files.notes(name, isThere)
      const {live, opened: {version}} = await (isThere ? begun([...this.#program, "open", log]) : this.#make(log, notes, first))
      return new FolderDocument({live, version, notes, ...await this.#files.epoch(name, isThere, version)}, events)
    } catch (error) {
      throw error.code === "store" ? error : storeFails(error)
    }
  }

  // What is noted is on the disk before the log is there. Without a log it says nothing.
  async #make(log, notes, {schemaName, schema, doc}) {
    const first = await firstDocument(schema, doc, {engines: this.#engines, program: this.#program})
    await notes.set(MADE, {schemaName, schema, doc: first})
    const made = await begun([...this.#program, "new", log], [JSON.stringify(schema), JSON.stringify(first)])
    await this.#files.sync()
    return made
  }

  renew() { return this.#files.renew() }

  check() { return this.#files.check() }

  async end() { this.#log.debug("store-ended") }
}
