// The documents that are open: each by its name, opened when someone comes and let go when nobody has watched it for a while.

import fs from "node:fs/promises"
import path from "node:path"
import {Document} from "./document.js"
import {Refusal} from "./errors.js"
import {said} from "./log.js"

const NAME = /^[A-Za-z0-9_-]{1,64}$/

/** A Refusal where a document has no such name. */
export function checkName(name) {
  if (!NAME.test(name)) throw new Refusal("document", "a document's name is 1 to 64 ASCII letters, digits, _ and -")
}

export const hasEnded = () => new Refusal("store", "what keeps the document has ended", {retry: 1000})

export class Documents {
  #settings
  #store
  #parts
  #log
  #open = new Map()
  #closing = new Map()
  #timers = new Map()
  #schemas = new Map()
  #beat

  /** @param {{settings: object, store: import("./store/store.js").Store, engines: object, log: import("./log.js").Log}} parts */
  constructor(parts) {
    this.#parts = parts
    this.#settings = parts.settings
    this.#store = parts.store
    this.#log = parts.log
    this.#beat = setInterval(() => this.#beatAll(), 15_000)
    this.#beat.unref()
  }

  get size() { return this.#open.size }

  /** Those that are open by now. */
  async all() { return (await Promise.allSettled([...this.#open.values()])).flatMap(({value}) => (value ? [value] : [])) }

  async #beatAll() { for (const document of await this.all()) document.presences.beat() }

  /** What a schema's file says. */
  async #schema(name) {
    if (!NAME.test(name)) throw new Refusal("schema", "this is no schema's name")
    if (!this.#schemas.has(name)) {
      try {
        const {schema, doc = null} = JSON.parse(await fs.readFile(path.join(this.#settings.schemas, `${name}.json`), "utf8"))
        this.#schemas.set(name, {schemaName: name, schema, doc})
      } catch (error) {
        if (error.code == "ENOENT") throw new Refusal("schema", `there is no schema ${name}`)
        throw error
      }
    }
    return this.#schemas.get(name)
  }

  /**
   * A document, which stays open until it is left as often as it was taken.
   * @param {string} name
   * @param {{schema?: string | null, make?: () => void}} how `schema` names that of a new document, or has to be that of one that is
   *   there; `make` is called before one is made, and may throw. Without `make` none is: null
   * @returns {Promise<Document | null>}
   */
  async take(name, {schema = null, make} = {}) {
    checkName(name)
    const document = await this.#opened(name, {schema, make})
    if (!document) return null
    if (schema !== null && document.held.schemaName != schema) {
      this.#leaveLater(name, document)
      throw new Refusal("schema", `the document has the schema ${document.held.schemaName}`)
    }
    if (document.isDead) throw hasEnded()
    document.users++
    clearTimeout(this.#timers.get(name))
    return document
  }

  leave(document) {
    document.users--
    this.#leaveLater(document.name, document)
  }

  #leaveLater(name, document) {
    // (by then another may be open by its name)
    if (document.isDead) return
    clearTimeout(this.#timers.get(name))
    if (document.users > 0 || !this.#open.has(name)) return
    this.#timers.set(name, setTimeout(() => { if (document.users == 0) this.#close(name, document) }, this.#settings.idleSeconds * 1000))
  }

  async #opened(name, how) {
    await this.#closing.get(name)
    if (!this.#open.has(name)) {
      if (this.#open.size >= this.#settings.documents) throw new Refusal("limit", "too many documents are open", {retry: 5000})
      const opening = this.#start(name, how)
      this.#open.set(name, opening)
      const forget = () => { if (this.#open.get(name) === opening) this.#open.delete(name) }
      opening.then(document => { if (!document) forget() }, forget)
    }
    return this.#open.get(name)
  }

  async #start(name, {schema, make}) {
    const document = new Document(name, this.#parts)
    document.users = 0
    document.onEnd = error => this.#fail(name, document, error)
    let held = await this.#store.open(name, null, document.events)
    if (!held) {
      if (!make) return null
      const first = await this.#schema(schema ?? this.#settings.schema)
      make()
      held = await this.#store.open(name, first, document.events)
      this.#log.info("document-made", {document: name, schema: first.schemaName})
    }
    document.begin(held)
    this.#log.info("document-opened", {document: name, version: held.version})
    this.#leaveLater(name, document)
    return document
  }

  // What keeps it has ended: who watches connects again, and it is opened anew.
  #fail(name, document, error) {
    this.#log.error("document-ended", {document: name, ...said(error)})
    document.isDead = true
    for (const watcher of [...document.watchers]) watcher.end(hasEnded())
    this.#close(name, document)
  }

  #close(name, document) {
    clearTimeout(this.#timers.get(name))
    this.#timers.delete(name)
    if (this.#closing.has(name) || !this.#open.has(name)) return this.#closing.get(name)
    this.#open.delete(name)
    const closing = document.close().then(
      () => this.#log.info("document-closed", {document: name, version: document.version}),
      error => this.#log.error("document-unclosed", {document: name, ...said(error)}),
    ).finally(() => this.#closing.delete(name))
    this.#closing.set(name, closing)
    return closing
  }

  async end() {
    clearInterval(this.#beat)
    for (const document of await this.all()) this.#close(document.name, document)
    await Promise.all(this.#closing.values())
  }
}
