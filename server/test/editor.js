// An editor without a page: a client of the engine that types, sends, is told, loses its connection and goes on at another server. Each
// text that it puts in is its own, so that the log shows whether one is lost or doubled.

import {setTimeout as wait} from "node:timers/promises"
import {openEngine} from "../../bindings/js/src/index.js"
import {random} from "./random.js"
import {Talker, tokenFor} from "./talker.js"
import {until, within} from "./waiting.js"

const engine = await openEngine()

export class Editor {
  #addresses
  #random
  #talker = null
  #newest = null
  #at
  #isOver = false
  #isSending = false
  #isBehind = false
  #made = 0

  /** @param {string[]} addresses the servers, of which it takes another one when it lost its own */
  constructor(addresses, document, user, {seed = 1, at = 0} = {}) {
    this.#addresses = addresses
    this.#random = random(seed)
    this.#at = at
    this.document = document
    this.user = user
    this.client = null
    this.ticket = null
    this.epoch = null
    this.clientID = null
    /** The texts that it put in, in their order. */
    this.texts = []
    this.confirmed = 0
    this.moves = 0
    this.closes = []
  }

  get version() { return this.client.state().version }

  get pending() { return this.client.state().pending }

  /** Connects, and again whenever it is cut off, until `end`. */
  async start() {
    this.#keep().catch(error => { this.fault = error })
    await this.#until(() => this.client, `${this.user} is welcome`)
  }

  #until(holds, what) {
    return until(() => {
      if (this.fault) throw this.fault
      return holds()
    }, what)
  }

  async #keep() {
    for (let tries = 0; !this.#isOver; tries++) {
      try {
        await this.#connect()
        const {code} = await this.#newest.closed
        this.closes.push(code)
        tries = 0
      } catch (error) {
        if (error.name == "GezhufetError" || error.reason !== undefined) throw error
      }
      if (this.#isOver) return
      this.#at++
      this.moves++
      await wait(Math.min(50 * (tries + 1), 500) * this.#random())
    }
  }

  async #connect() {
    const talker = new Talker(this.#addresses[this.#at % this.#addresses.length], this.document, {token: tokenFor(this.user)})
    this.#newest = talker
    const version = this.client ? this.version : null
    const welcome = await within(talker.hello({version, epoch: this.epoch, ticket: this.ticket}), "the welcome")
    this.ticket = welcome.ticket
    this.epoch = welcome.epoch
    this.clientID ??= welcome.clientID
    if (welcome.clientID != this.clientID) throw new Error("the ID is another one")
    if (!this.client)
      this.client = engine.openClient({schema: welcome.schema, doc: welcome.doc, version: welcome.version, clientID: welcome.clientID})
    this.#talker = talker
    talker.socket.on("message", data => this.#hear(JSON.parse(data)))
    for (const message of talker.told) this.#hear(message)
    this.#exchange()
  }

  // Sends what is pending, and is told what is new, until nothing is left.
  async #exchange() {
    const talker = this.#talker
    if (this.#isSending || !talker) return
    this.#isSending = true
    try {
      while (talker === this.#talker && (this.#isBehind || this.pending)) {
        const message = this.#isBehind ? this.client.ask() : this.client.compose()
        // (what comes right behind the answer is heard before it)
        this.#isBehind = false
        const answer = await talker.ask(message)
        if (answer.refused || answer.fault) throw Object.assign(new Error(JSON.stringify(answer)), {reason: 0})
        this.#take(answer)
      }
    } catch (error) {
      this.#isBehind = true
      if (error.reason !== undefined) this.fault = error
      else if (error.retry) setTimeout(() => this.#exchange(), error.retry).unref()
    } finally {
      this.#isSending = false
    }
    if (talker !== this.#talker && !this.#isOver) this.#exchange()
  }

  #take(answer) {
    const took = this.client.take(answer)
    this.confirmed += took.confirmed ?? 0
    this.#isBehind ||= took.gap !== undefined || (took.kept !== undefined && this.version < answer.version)
  }

  #hear(message) {
    if (message.op != "entries") return
    try {
      this.#take(message.entries)
      this.#exchange()
    } catch (error) {
      this.fault = error
    }
  }

  /** Types: puts a text of its own in, or takes one letter away. */
  type() {
    const {size} = this.client.state(), pick = this.#random
    if (pick() < 0.2) {
      const from = 1 + Math.floor(pick() * Math.max(1, size - 2))
      this.client.edit({op: "delete", from, to: Math.min(from + 1, size - 1)})
    } else {
      const text = `[${this.user}${this.#made++}]`, pos = 1 + Math.floor(pick() * Math.max(1, size - 1))
      if (this.client.edit({op: "text", from: Math.min(pos, size - 1), to: Math.min(pos, size - 1), text}).made) this.texts.push(text)
    }
    this.#exchange()
  }

  /** Types so often, with a pause that is at most so long. */
  async typeOn(count, pause) {
    for (let i = 0; i < count; i++) {
      this.type()
      await wait(pause * this.#random())
      if (this.fault) throw this.fault
    }
  }

  /** Once all that it made is confirmed. */
  settled() { return this.#until(() => this.pending == 0, `${this.user} is settled`) }

  /** Once it has a version. */
  reaches(version) { return this.#until(() => this.version >= version, `${this.user} has version ${version}`) }

  /** Cuts its own connection. */
  cut() { this.#newest?.kill() }

  end() {
    this.#isOver = true
    this.#newest?.kill()
  }
}
