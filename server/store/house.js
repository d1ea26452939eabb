// Documents in one folder, all of them in one house of the engine's: a process that keeps them in house.log, as long as the store is open.

import {createHash} from "node:crypto"
import {Refusal, storeFails} from "../errors.js"
import {said} from "../log.js"
import {Files, MADE} from "./files.js"
import {begun, endOf, LiveDocument} from "./live-document.js"

/** Versions have 32 bits, and no log is so long: what it has from there on is nothing, and its length. */
const NO_VERSION = 4_294_967_295

/** A schema's name in the house: of one text it is the same, whoever gives it. */
const nameOf = schema => createHash("sha256").update(JSON.stringify(schema)).digest("base64url")

class HouseDocument extends LiveDocument {
  #house

  constructor(house, name, parts, events) {
    super({...parts, live: house.live, about: {in: name}}, events)
    this.#house = house
    house.hold(this)
  }

  doc(isFirst = false) { return this.docAt(isFirst ? 0 : undefined) }

  // It stays open in the house.
  async letGo() { this.#house.leave(this) }
}

/** The process, as long as it lives. */
class House {
  #held = new Set()
  #schemas = new Set()
  #end = null

  constructor(live) {
    this.live = live
    this.ended = live.ended.then(end => {
      this.#end = end
      return end
    })
  }

  async #ask(...messages) {
    const answers = await this.live.tell(...messages.map(it => JSON.stringify(it)))
    return answers.map(it => JSON.parse(it))
  }

  /** How long a document's log is, null where there is no such document. */
  async versionOf(name) {
    const [answer] = await this.#ask({op: "since", in: name, version: NO_VERSION})
    if (answer.none == "document") return null
    return versionIn(answer)
  }

  /** Makes a document, which is on the disk then. A schema is told once. */
  async make(name, schema, doc) {
    const schemaName = nameOf(schema), open = {op: "open", in: name, schema: schemaName, doc}
    const messages = this.#schemas.has(schemaName) ? [open] : [{op: "schema", name: schemaName, schema}, open]
    const answers = await this.#ask(...messages)
    if (answers.some(it => it.none == "room")) throw new Refusal("limit", "the house has no room for one more document or schema")
    for (const answer of answers.slice(0, -1)) if (answer.schema !== schemaName) throw unexpected(answer)
    this.#schemas.add(schemaName)
    return versionIn(answers.at(-1))
  }

  hold(document) {
    if (this.#end) throw endOf(this.#end)
    this.#held.add(document)
  }

  leave(document) { this.#held.delete(document) }

  /** Tells all that are held that the process has ended. */
  fail() { for (const document of [...this.#held]) document.ended(this.#end) }

  close() { return this.live.close() }
}

const unexpected = answer => new Error(`the house answers ${JSON.stringify(answer)}`)

function versionIn(answer) {
  if (answer.version === undefined) throw unexpected(answer)
  return answer.version
}

/** @implements {import("./store.js").Store} */
export class HouseStore {
  #files
  #program
  #log
  #house = null
  #isOver = false

  constructor({folder, program}, {log}) {
    this.#files = new Files(folder, log)
    this.#program = program
    this.#log = log
  }

  async start() {
    await this.#files.start(true)
    await this.#ready()
  }

  // ---- the process

  // The house, whose process is started where there is none.
  #ready() {
    if (this.#isOver) throw new Error("the store has ended")
    this.#house ??= this.#begin()
    return this.#house
  }

  #begin() {
    const opening = this.#open()
    const forget = () => { if (this.#house === opening) this.#house = null }
    opening.then(house => house.ended.then(() => {
      forget()
      if (!this.#isOver) house.fail()
    }), forget)
    return opening
  }

  // A process over a disk that takes nothing would end with the first line that is to be kept, for all documents. To read a long file
  // takes its time.
  async #open() {
    await this.#files.check()
    const file = this.#files.house, isThere = await this.#files.has(file), words = ["many", isThere ? "open" : "new", file]
    const {live, opened} = await begun([...this.#program, ...words], isThere ? [] : ['{"op":"statistics"}'], Infinity)
    if (!isThere) await this.#files.sync()
    this.#log.info("house-opened", opened)
    return new House(live)
  }

  // ---- documents

  async open(name, first, events) {
    try {
      const house = await this.#ready(), length = await house.versionOf(name), isThere = length !== null
      if (!isThere && !first) return null
      const notes = await this.#files.notes(name, isThere)
      const version = length ?? await this.#make(house, name, notes, first)
      return new HouseDocument(house, name, {version, notes, ...await this.#files.epoch(name, isThere, version)}, events)
    } catch (error) {
      throw error instanceof Refusal ? error : storeFails(error)
    }
  }

  // What is noted is on the disk before the house has the document.
  async #make(house, name, notes, {schemaName, schema, doc}) {
    await notes.set(MADE, {schemaName, schema})
    return house.make(name, schema, doc)
  }

  renew() { return this.#files.renew() }

  async check() {
    await this.#files.check()
    await this.#ready()
  }

  async end() {
    this.#isOver = true
    const house = await this.#house?.catch(error => this.#log.debug("no-house", said(error)))
    const end = await house?.close()
    if (end?.status) this.#log.warn("house-ended", {error: endOf(end).message})
  }
}
