// A document that a process of `pm live` answers for, with what files have beside the engine's.

import {setTimeout as wait} from "node:timers/promises"
import {Live} from "../engine.js"
import {Refusal, storeFails} from "../errors.js"
import {back, entriesIn, front, whole} from "./entries.js"
import {MADE} from "./files.js"

/** The status of a process whose file another one has open, and for how long one of a server that was killed may have it still. */
const IS_BUSY = 8
const BUSY = 5_000

/** So many entries are asked for at once. */
const AT_ONCE = 1_000

/**
 * Starts a process, and gives it with what it says first. It is started again for a while where its file is busy.
 * @param {string[]} command the program and its words
 * @param {string[]} [lines] what is written before, nothing where the process speaks first
 * @param {number} [patience] for how many milliseconds that is waited for
 */
export async function begun(command, lines, patience) {
  for (const end = Date.now() + BUSY; ;) {
    const live = new Live(command)
    try {
      const opened = await live.next(lines, patience)
      if (opened.fault === undefined) return {live, opened}
      await live.close()
      throw new Error(`pm live has the fault ${opened.fault} of line ${opened.line}`)
    } catch (error) {
      if ((await live.ended).status != IS_BUSY || Date.now() > end) throw error
      await wait(100)
    }
  }
}

/** What a process that has ended says of it. */
export const endOf = ({status, said}) => new Error(`pm live ended with status ${status}: ${said}`)

export class LiveDocument {
  #about
  #notes
  #events
  // The entries of the last submission that was accepted, since they are asked for at once.
  #newest = null
  #noteEpoch
  #isClosed = false

  /**
   * @param {object} parts
   * @param {Live} parts.live
   * @param {object} [parts.about] what each line says besides
   * @param {number} parts.version
   * @param {import("./notes.js").Notes} parts.notes
   * @param {string} parts.epoch
   * @param {(version: number) => Promise<void>} parts.noteEpoch
   * @param {import("./store.js").Events} events
   */
  constructor({live, about = {}, version, notes, epoch, noteEpoch}, events) {
    this.live = live
    this.#about = about
    this.#notes = notes
    this.#noteEpoch = noteEpoch
    this.#events = events
    this.version = version
    this.epoch = epoch
    /** What it was made of. */
    this.made = notes.notes.get(MADE)
    this.schemaName = this.made.schemaName
    this.schema = this.made.schema
    this.notes = new Map([...notes.notes].filter(([id]) => id != MADE))
  }

  /** The number of the engine's process. */
  get pid() { return this.live.pid }

  async #tell(...messages) {
    try {
      return await this.live.tell(...messages.map(({op, ...more}) => JSON.stringify({op, ...this.#about, ...more})))
    } catch (error) {
      throw storeFails(error)
    }
  }

  async submit({version, clientID, steps}) {
    const since = {op: "since", version: this.version}
    // (where the disk took no line, that was the last answer, and there is none to the second)
    const [text, entries] = await this.#tell({op: "submit", version, clientID, steps}, since), answer = JSON.parse(text)
    if (answer.accepted) this.#newest = entries.startsWith('{"fault":') ? null : entriesIn(entries)
    if (answer.accepted) this.#grow(answer.accepted.from + answer.accepted.count)
    return answer
  }

  #grow(version) {
    if (version <= this.version) return
    this.version = version
    this.#events.grown(version)
  }

  async since(version, bytes) {
    const entries = this.#newest?.version == this.version ? back(this.#newest, version) : null
    return front(entries ?? entriesIn((await this.#tell({op: "since", version, most: AT_ONCE}))[0]), bytes)
  }

  /** The document as it is, or as it was at a version. */
  async docAt(version) { return whole(JSON.parse((await this.#tell({op: "doc", version}))[0])) }

  async note(id, value, isFleeting = false) {
    if (isFleeting) return undefined
    try {
      return await this.#notes.set(id, value)
    } catch (error) {
      throw error instanceof Refusal ? error : storeFails(error)
    }
  }

  /** Its process has ended: by a fault, where it is held. */
  ended(end) { if (!this.#isClosed) this.#events.ended(endOf(end)) }

  /** Has it no longer held, by `letGo`. */
  async close() {
    this.#isClosed = true
    await this.letGo()
    await this.#noteEpoch(this.version)
  }
}
