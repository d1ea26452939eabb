// Documents in PostgreSQL, for several servers. Each server has an authority in its process for each document that it holds, opened from
// the last snapshot and the entries since. What the authority accepts counts once its entries are in the table.

import {randomUUID} from "node:crypto"
import {setTimeout as wait} from "node:timers/promises"
import {packageOf} from "../packages.js"
import {said} from "../log.js"
import {Refusal, storeFails} from "../errors.js"
import {firstDocument} from "../engine.js"
import {PostgresDocument} from "./postgres-document.js"
import {newEpoch} from "./epochs.js"
import {CHANNEL, DOCUMENT, FORGET_EPOCHS, KEEPS, LENGTHS, MAKE, RENEW, TABLES, TELL, TRY} from "./tables.js"

/** The bytes that one notice may have, those of the server's ID not counted, and the pause between what is told that nothing keeps. */
const MOST_TOLD = 7_800
const TELL_PAUSE = 150

// Lists of what is told, each short enough for a notice.
function parts(all) {
  const lists = []
  let left = 0
  for (const told of all) {
    const size = Buffer.byteLength(JSON.stringify(told)) + 1
    if (size > left) {
      lists.push([])
      left = MOST_TOLD
    }
    lists.at(-1).push(told)
    left -= size
  }
  return lists
}

/** @implements {import("./store.js").Store} */
export class PostgresStore {
  #settings
  #engines
  #log
  #pool
  #listener = null
  #held = new Map()
  #fleeting = new Map()
  #tellTimer = null
  #isOver = false
  #isRefused = false
  #timer

  constructor(settings, {engines, log}) {
    this.#settings = settings
    this.#engines = engines
    this.#log = log
    /** Whose notices are one's own. */
    this.id = randomUUID()
  }

  async start() {
    const {Pool} = packageOf("pg")
    const {database, databaseConnections: max} = this.#settings
    this.#pool = new Pool({
      connectionString: database, max, connectionTimeoutMillis: 5_000, query_timeout: 15_000, statement_timeout: 15_000,
    })
    this.#pool.on("error", error => this.#log.warn("database-connection-lost", said(error)))
    await this.#makeTables()
    await this.#listen()
    // A notice may be lost.
    this.#timer = setInterval(() => this.#lookAgain(), 5_000)
    this.#timer.unref()
  }

  // Two servers that begin at once may both make them.
  async #makeTables() {
    const client = await this.#pool.connect()
    try {
      await client.query("SELECT pg_advisory_lock(hashtext('gezhufet'))")
      await client.query(TABLES)
      await client.query("SELECT pg_advisory_unlock(hashtext('gezhufet'))")
    } finally {
      client.release()
    }
  }

  /** What a statement gives. A Refusal where the database fails; of a key that is there already the error as it is. */
  async query(text, values) {
    try {
      return (await this.#pool.query(text, values)).rows
    } catch (error) {
      if (error.code == "23505") throw error
      if (KEEPS.has(text)) this.#isRefused = true
      this.#log.warn("database-fails", said(error))
      throw storeFails(error)
    }
  }

  get settings() { return this.#settings }

  get engines() { return this.#engines }

  get log() { return this.#log }

  // ---- notices

  async #listen() {
    const {Client} = packageOf("pg")
    const client = new Client({connectionString: this.#settings.database, keepAlive: true, connectionTimeoutMillis: 5_000})
    client.on("error", error => this.#log.warn("listener-lost", said(error)))
    client.on("notification", ({payload}) => {
      try {
        this.#hear(payload)
      } catch (error) {
        this.#log.warn("notice-unread", said(error))
      }
    })
    try {
      await client.connect()
      await client.query(`LISTEN ${CHANNEL}`)
    } catch (error) {
      client.end().catch(() => {})
      throw error
    }
    client.once("end", () => this.#listenAgain())
    this.#listener = client
  }

  async #listenAgain() {
    this.#listener = null
    for (let pause = 100; !this.#isOver && !this.#listener; pause = Math.min(2 * pause, 5_000)) {
      try {
        await this.#listen()
      } catch (error) {
        this.#log.warn("listener-fails", said(error))
        await wait(pause, undefined, {ref: false})
      }
    }
    if (this.#isOver) await this.#listener?.end()
    else await Promise.all([this.#lookAgain(), this.#readNotes()])
  }

  async #readNotes() {
    for (const document of [...this.#held.values()])
      await document.readNotes().catch(error => this.#log.warn("notes-unread", said(error)))
  }

  #hear(payload) {
    const {server, name, fleeting, ...told} = JSON.parse(payload)
    if (server === this.id) return
    if (!fleeting) this.#held.get(name)?.hear(told)
    else for (const [of, id, value] of fleeting) this.#held.get(of)?.hear({id, value, isFleeting: true})
  }

  // Asks for the logs' lengths, for notices that were lost.
  async #lookAgain() {
    if (this.#held.size == 0) return
    try {
      const rows = await this.query(LENGTHS, [[...this.#held.keys()]])
      for (const {name, version} of rows) this.#held.get(name)?.hear({version: Number(version)})
    } catch (error) {
      this.#log.warn("lengths-unread", said(error))
    }
  }

  /** The text of a notice to the other servers. */
  notice(name, told) { return JSON.stringify({server: this.id, name, ...told}) }

  /** Tells the other servers soon what nothing keeps; of an ID what was told last. */
  tell(name, id, value) {
    this.#fleeting.set(`${name} ${id}`, [name, id, value])
    this.#tellTimer ??= setTimeout(() => this.#tellAll(), TELL_PAUSE)
  }

  async #tellAll() {
    const all = [...this.#fleeting.values()].filter(it => Buffer.byteLength(JSON.stringify(it)) < MOST_TOLD / 4)
    this.#tellTimer = null
    this.#fleeting.clear()
    try {
      for (const fleeting of parts(all)) await this.query(TELL, [JSON.stringify({server: this.id, fleeting})])
    } catch (error) {
      this.#log.debug("untold", said(error))
    }
  }

  // ---- documents

  async open(name, first, events) {
    let [row] = await this.query(DOCUMENT, [name])
    if (!row && !first) return null
    if (!row) await this.#make(name, first)
    else if (!row.is_marked) await this.query(RENEW, [name, newEpoch()])
    // Another server may have been first.
    if (!row?.is_marked) [row] = await this.query(DOCUMENT, [name])
    const document = new PostgresDocument(this, name, row, events)
    // Notices that come from now on are heard.
    this.#held.set(name, document)
    try {
      await document.start()
    } catch (error) {
      this.#held.delete(name)
      throw error
    }
    return document
  }

  async #make(name, {schemaName, schema, doc}) {
    const first = await firstDocument(schema, doc, {engines: this.#engines, program: this.#settings.program})
    await this.query(MAKE, [name, schemaName, JSON.stringify(schema), JSON.stringify(first), newEpoch()])
  }

  letGo(name, document) {
    if (this.#held.get(name) === document) this.#held.delete(name)
  }

  async renew() { await this.query(FORGET_EPOCHS) }

  // Where something could not be kept, it is tried whether it can be by now.
  async check() {
    await this.query("SELECT 1")
    if (!this.#isRefused) return
    await this.#try()
    this.#isRefused = false
  }

  async #try() {
    const client = await this.#pool.connect()
    try {
      await client.query("BEGIN")
      await client.query(TRY)
    } catch (error) {
      throw new Refusal("store", "the store refuses what is to be kept", {cause: error})
    } finally {
      await client.query("ROLLBACK").then(() => client.release(), error => client.release(error))
    }
  }

  async end() {
    this.#isOver = true
    clearInterval(this.#timer)
    clearTimeout(this.#tellTimer)
    await this.#tellAll()
    await this.#listener?.end()
    await this.#pool.end()
  }
}
