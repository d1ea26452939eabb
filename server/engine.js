// The two ways to the proved engine: in this process (bindings/js), or a process of `pm live`. All that is decided about documents is
// decided behind one of these calls.

import {spawn} from "node:child_process"
import {EndedError, openEngine} from "../bindings/js/src/index.js"
import {entriesIn} from "./store/entries.js"

/** Versions are written with 32 bits. No log is so long, so a submission of this version is one of another than the log's. */
const NO_VERSION = 4_294_967_295

/** For how many milliseconds an answer of a process is waited for unless told, and how often it is looked whether one is. */
const PATIENCE = 120_000
const LOOK = 10_000

/** Engines in this process, among which documents are shared out: one that stops by a fault of its own takes a part of them alone. */
export class Engines {
  #options
  #count
  #engines = []
  #next = 0

  /** @param {{kind?: string, count?: number}} options */
  constructor({kind, count = 1} = {}) {
    this.#options = kind ? {kind} : {}
    this.#count = count
  }

  /** Whether there is an engine in this process: the module or the addon was built. */
  async isThere() {
    try {
      await this.#engine()
      return true
    } catch {
      return false
    }
  }

  // The one whose turn it is.
  #engine() {
    const place = this.#next++ % this.#count
    if (!this.#engines[place]) {
      const opening = openEngine(this.#options)
      this.#engines[place] = opening
      opening.catch(() => this.#forget(opening))
    }
    return this.#engines[place]
  }

  #forget(opening) { this.#engines = this.#engines.map(it => (it === opening ? undefined : it)) }

  // What is opened by `open`, in a new engine where the one whose turn it is has stopped.
  async #opened(open) {
    for (let tries = 0; ; tries++) {
      const opening = this.#engine(), engine = await opening
      try {
        return open(engine)
      } catch (error) {
        if (!(error instanceof EndedError) || tries > this.#count) throw error
        this.#forget(opening)
      }
    }
  }

  /**
   * An authority over a log that has `base` steps before the document.
   * @param {object} schema
   * @param {object | null} doc
   */
  async authority(schema, doc, base = 0) {
    return new Inside(await this.#opened(engine => engine.openAuthority(schema, doc)), base)
  }

  /** A client, by which places are carried past steps. */
  client(schema, doc, version) {
    return this.#opened(engine => engine.openClient({schema, doc, version, clientID: "places"}))
  }
}

/** An authority in this process. The versions of its messages count from the log's beginning, not from its own first document. */
export class Inside {
  #authority
  #base

  constructor(authority, base) {
    this.#authority = authority
    this.#base = base
  }

  /** The number of steps before its first document. */
  get base() { return this.#base }

  get version() { return this.#base + this.#authority.version }

  /** @param {{version: number, clientID: string, steps: object[]}} message */
  submit({version, clientID, steps}) {
    const own = version >= this.#base ? version - this.#base : NO_VERSION
    return this.#counted(this.#authority.ask({op: "submit", version: own, clientID, steps}))
  }

  /** The entries from a version on that is not before its base. */
  since(version) {
    const entries = entriesIn(this.#authority.tell(`{"op":"since","version":${version - this.#base}}`))
    return {...entries, version: this.#base + entries.version}
  }

  doc() { return this.#counted(this.#authority.ask({op: "doc"})) }

  close() { this.#authority.close() }

  #counted(answer) {
    if (answer.accepted) answer.accepted.from += this.#base
    else if (answer.version !== undefined) answer.version += this.#base
    return answer
  }
}

/** A process of `pm live`, which answers lines in their order. */
export class Live {
  #process
  #waiting = []
  #parts = []
  #heard = 0
  #said = ""
  #fault = null
  #timer

  /** @param {string[]} command the program and its words */
  constructor([program, ...words]) {
    // (in a group of its own: a key that stops the server in a terminal is not meant for it)
    this.#process = spawn(program, words, {stdio: ["pipe", "pipe", "pipe"], detached: true})
    /** The status with which it ends, null where it was killed, and what it said. */
    this.ended = new Promise(resolve => {
      this.#process.on("close", status => resolve({status, said: this.#said.trim()}))
      this.#process.on("error", error => resolve({status: null, said: error.message}))
    })
    this.ended.then(({status, said}) => this.#fail(new Error(`pm live ended with status ${status}: ${said}`)))
    this.#process.stdin.on("error", () => {})
    this.#process.stderr.setEncoding("utf8").on("data", text => { this.#said = (this.#said + text).slice(-1000) })
    this.#process.stdout.setEncoding("utf8").on("data", text => this.#read(text))
    this.#timer = setInterval(() => this.#watch(), LOOK)
    this.#timer.unref()
  }

  // A long answer comes in many parts.
  #read(text) {
    const [first, ...rest] = text.split("\n")
    this.#parts.push(first)
    for (const next of rest) {
      this.#answered(this.#parts.join(""))
      this.#parts = [next]
    }
  }

  #answered(line) {
    const [asked] = this.#waiting
    this.#heard = Date.now()
    asked?.answers.push(line)
    if (asked?.answers.length === asked?.count) this.#waiting.shift()?.resolve(asked.answers)
  }

  // One that does not answer for so long is ended, by which who waits is told.
  #watch() {
    const [asked] = this.#waiting
    if (asked && Date.now() - this.#heard > asked.patience) this.#process.kill("SIGKILL")
  }

  #fail(error) {
    this.#fault ??= error
    clearInterval(this.#timer)
    for (const {reject} of this.#waiting.splice(0)) reject(this.#fault)
  }

  // The answers that come next, so many, to lines that are written at once.
  #answers(count, lines, patience = PATIENCE) {
    if (this.#fault) return Promise.reject(this.#fault)
    if (this.#waiting.length == 0) this.#heard = Date.now()
    return new Promise((resolve, reject) => {
      this.#waiting.push({count, answers: [], patience, resolve, reject})
      if (lines.length) this.#process.stdin.write(`${lines.join("\n")}\n`)
    })
  }

  /** The answer that comes next, to what is written: lines, none where the process speaks first. */
  async next(lines = [], patience = PATIENCE) { return JSON.parse((await this.#answers(1, lines, patience))[0]) }

  /** The answers to lines, as their texts. */
  tell(...lines) { return this.#answers(lines.length, lines) }

  /** The answer to a message. */
  ask(message) { return this.next([JSON.stringify(message)]) }

  /** Lets it end once it has answered all, and by force where it does not. */
  async close(seconds = 10) {
    this.#process.stdin.end()
    const timer = setTimeout(() => this.#process.kill("SIGKILL"), seconds * 1000)
    const ended = await this.ended
    clearTimeout(timer)
    return ended
  }

  /** Its process's number; undefined where it could not be started. */
  get pid() { return this.#process.pid }
}

/**
 * The document that a log begins with, as the engine writes it.
 * @param {object} schema
 * @param {object | null} doc
 * @param {{engines: Engines, program: string[]}} ways
 */
export async function firstDocument(schema, doc, {engines, program}) {
  if (await engines.isThere()) {
    const authority = await engines.authority(schema, doc)
    const answer = authority.doc()
    authority.close()
    return answer.doc
  }
  const live = new Live(program)
  try {
    const opened = await live.next([JSON.stringify(schema), JSON.stringify(doc)])
    if (opened.fault !== undefined) throw new Error(`line ${opened.line} has the fault ${opened.fault}`)
    const {doc: first} = await live.ask({op: "doc"})
    return first
  } finally {
    await live.close()
  }
}
