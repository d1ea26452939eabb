// One document in PostgreSQL, as one server holds it. What is done to it is done one after the other, and so is what is done to its notes.

import {said} from "../log.js"
import {Refusal, storeFails} from "../errors.js"
import {Order} from "../order.js"
import {front, whole} from "./entries.js"
import {ADD, CHANGE_NOTE, DROP_NOTE, ENTRIES, FORGET, KEEP, NOTE, NOTES, SET_NOTE, SNAPSHOT} from "./tables.js"

/** So many entries are read at once. */
const AT_ONCE = 1_000

/** @implements {import("./store.js").Held} */
export class PostgresDocument {
  #store
  #name
  #first
  #events
  #authority = null
  #length = 0
  #order = new Order()
  #noting = new Order()
  #isLooking = false
  #isClosed = false

  constructor(store, name, row, events) {
    this.#store = store
    this.#name = name
    this.#first = row.doc
    this.#events = events
    this.schemaName = row.schema_name
    this.schema = JSON.parse(row.schema)
    this.epoch = row.epoch
    this.notes = new Map()
  }

  /** The number of steps that are in the table, as far as this server knows. */
  get version() { return this.#length }

  async start() {
    for (const {id, value} of await this.#store.query(NOTES, [this.#name])) this.notes.set(id, JSON.parse(value))
    await this.#order.do(() => this.#ready())
  }

  // ---- the authority

  // The authority, opened where it is not; it has all entries of the table then.
  async #ready() {
    if (this.#authority) return this.#authority
    const [snapshot] = await this.#store.query(SNAPSHOT, [this.#name])
    const base = snapshot ? Number(snapshot.version) : 0
    this.#authority = await this.#store.engines.authority(this.schema, JSON.parse(snapshot?.doc ?? this.#first), base)
    await this.#read()
    return this.#authority
  }

  // Has the authority take what the table has more. The engine has to accept each entry.
  async #read() {
    try {
      for (let rows; (rows = await this.#rows(this.#authority.version)).length;) {
        for (const {client, step, version} of rows) this.#take({version: Number(version), clientID: client, steps: [JSON.parse(step)]})
        if (rows.length < AT_ONCE) break
      }
    } catch (error) {
      this.#drop()
      throw error
    }
    this.#grow()
  }

  #rows(from) { return this.#store.query(ENTRIES, [this.#name, from, AT_ONCE]) }

  #take(message) {
    const answer = this.#authority.submit(message)
    if (answer.accepted) return
    this.#store.log.error("entry-refused", {document: this.#name, version: message.version, answer})
    throw new Refusal("engine", "the engine does not take an entry of the log", {retry: 5000})
  }

  #drop() {
    this.#authority?.close()
    this.#authority = null
  }

  #grow() {
    if (this.#authority.version <= this.#length) return
    this.#length = this.#authority.version
    if (!this.#isClosed) this.#events.grown(this.#length)
  }

  // ---- the five calls

  submit(message) { return this.#order.do(() => this.#submit(message)) }

  // The table may have an entry at this place since: then the authority is ahead of it with what is none, and is opened again.
  async #submit({version, clientID, steps}) {
    for (;;) {
      const authority = await this.#ready()
      const answer = this.#asked(() => authority.submit({version, clientID, steps}))
      if (!answer.accepted || answer.accepted.count == 0) return answer
      if (await this.#add(answer.accepted.from, clientID)) {
        this.#grow()
        await this.#snapshot()
        return answer
      }
    }
  }

  // An engine that stops by a fault of its own has let the document go, and so has one without memory for an answer.
  #asked(ask) {
    try {
      return ask()
    } catch (error) {
      this.#authority = null
      throw storeFails(error)
    }
  }

  // Whether the steps from a place on are in the table now. Where that is not known they may be: the authority is opened again.
  async #add(from, clientID) {
    const {steps} = this.#asked(() => this.#authority.since(from))
    try {
      const notice = this.#store.notice(this.#name, {version: from + steps.length})
      await this.#store.query(ADD, [this.#name, from, clientID, steps, notice])
      return true
    } catch (error) {
      this.#drop()
      if (error.code != "23505") throw error
      this.#store.log.info("place-taken", {document: this.#name, version: from})
      return false
    }
  }

  // A snapshot is what the authority is opened from next, so that its log and what is read stay short. That it can't be kept is no fault.
  async #snapshot() {
    const authority = this.#authority
    if (authority.version - authority.base < this.#store.settings.snapshotEvery) return
    try {
      const {doc, version} = whole(authority.doc())
      await this.#store.query(KEEP, [this.#name, version, JSON.stringify(doc)])
      await this.#store.query(FORGET, [this.#name])
      this.#authority = await this.#store.engines.authority(this.schema, doc, version)
      authority.close()
    } catch (error) {
      this.#store.log.warn("no-snapshot", {document: this.#name, ...said(error)})
    }
  }

  async since(version, bytes) {
    // Who knows of more than this server does has it of another one.
    if (version > this.#length) await this.#order.do(async () => (this.#authority ? this.#read() : this.#ready()))
    const authority = this.#authority
    if (authority && version >= authority.base && authority.version == this.#length) return front(authority.since(version), bytes)
    const rows = (await this.#rows(version)).filter(it => Number(it.version) < this.#length)
    const clientIDs = rows.map(it => JSON.stringify(it.client)), steps = rows.map(it => it.step)
    return front({clientIDs, steps, version: Math.min(version, this.#length) + rows.length}, bytes)
  }

  async doc(isFirst = false) {
    if (isFirst) return {doc: JSON.parse(this.#first), version: 0}
    return this.#order.do(async () => whole((await this.#ready()).doc()))
  }

  async note(id, value, isFleeting = false) {
    if (isFleeting) return this.#store.tell(this.#name, id, value ?? null)
    return this.#noting.do(async () => {
      const now = typeof value == "function" ? await this.#changeNote(id, value) : await this.#setNote(id, value)
      this.#learn(id, now)
      return now
    })
  }

  #learn(id, value) {
    if (value === undefined) this.notes.delete(id)
    else this.notes.set(id, value)
  }

  async #setNote(id, value) {
    const name = this.#name, notice = this.#store.notice(name, {id})
    if (value === undefined) await this.#store.query(DROP_NOTE, [name, id, notice])
    else await this.#store.query(SET_NOTE, [name, id, JSON.stringify(value), notice])
    return value
  }

  // Of two servers that change a note at once, the later one begins with what the other made of it.
  async #changeNote(id, change) {
    const name = this.#name, notice = this.#store.notice(name, {id})
    for (;;) {
      const [before] = await this.#store.query(NOTE, [name, id])
      if (!before) return undefined
      const value = change(JSON.parse(before.value))
      const done = await this.#store.query(CHANGE_NOTE, [name, id, before.value, JSON.stringify(value), notice])
      if (done.length) return value
    }
  }

  async close() {
    this.#isClosed = true
    this.#store.letGo(this.#name, this)
    await this.#order.settled
    this.#drop()
  }

  // ---- what other servers tell

  hear({version, id, value, isFleeting}) {
    if (this.#isClosed) return
    if (isFleeting) this.#events.noted(id, value ?? undefined)
    else if (id !== undefined) this.#readNote(id).catch(error => this.#store.log.warn("note-unread", said(error)))
    else if (version > this.#length) this.#look()
  }

  #readNote(id) {
    return this.#noting.do(async () => {
      const [row] = await this.#store.query(NOTE, [this.#name, id])
      this.#heard(id, row && JSON.parse(row.value))
    })
  }

  /** Reads all notes again, since notices of some may have been lost. */
  readNotes() {
    return this.#noting.do(async () => {
      const rows = await this.#store.query(NOTES, [this.#name]), texts = new Map(rows.map(it => [it.id, it.value]))
      for (const id of [...this.notes.keys()]) if (!texts.has(id)) this.#heard(id, undefined)
      for (const [id, text] of texts) if (JSON.stringify(this.notes.get(id)) != text) this.#heard(id, JSON.parse(text))
    })
  }

  #heard(id, value) {
    this.#learn(id, value)
    if (!this.#isClosed) this.#events.noted(id)
  }

  // Many notices are one look.
  #look() {
    if (this.#isLooking) return
    this.#isLooking = true
    this.#order.do(async () => {
      this.#isLooking = false
      if (this.#isClosed) return
      if (this.#authority) await this.#read()
      else await this.#ready()
    }).catch(error => this.#store.log.warn("entries-unread", {document: this.#name, ...said(error)}))
  }
}
