// A connection to one document of a server, which is opened again where it is lost: the socket, the greeting, and messages with their
// answers. What the messages mean is its user's matter.

import {LostError, ServerError} from "./errors.js"

// The waits before it connects again, in milliseconds: each is twice the one before it, and a random part of it is taken.
const FIRST_WAIT = 500, LAST_WAIT = 30000
// A server that has said nothing for so long is asked, and then has so long to answer.
const SILENCE = 20000, PATIENCE = 10000
// A token is renewed so long before its end. No timer can run longer than the second.
const BEFORE_END = 60000, LONGEST_TIMER = 2147483647

// Errors after which connecting again is no use, and those after which the client begins anew.
const FINAL = new Set(["access", "document", "schema", "hello", "replaced"])
const ANEW = new Set(["ticket", "version", "epoch"])

export class Connection {
  #options
  #socket = null
  #state = "connecting"
  #error = null
  #ticket = null
  #isAnew = false
  #isOpening = false
  #refusedTokens = 0
  #wait = FIRST_WAIT
  #timers = {}
  #heard = 0
  #count = 0
  #waiting = new Map()
  #online = []

  /// `url` is the document's, `token` a text or a function that gives one and is told whether the last was refused, `greeting()` the
  /// fields of `hello` but the ticket, with `version` and `epoch` null to begin. `onWelcome(welcome)`, `onMessage(message)`,
  /// `onState(state, error)` and `onError(error)` are told.
  constructor(options) {
    this.#options = {WebSocket: globalThis.WebSocket, onError: () => {}, ...options}
    globalThis.addEventListener?.("online", this.#retry)
    globalThis.addEventListener?.("offline", this.#drop)
    this.#open()
  }

  /// `"connecting"`, `"online"`, `"offline"`, or `"closed"` where it will not connect again; and the error that says why.
  get state() { return this.#state }
  get error() { return this.#error }

  /// Comes with the next greeting, at once where it is online. Never where it is closed.
  online() {
    return this.#state == "online" ? Promise.resolve() : new Promise(resolve => this.#online.push(resolve))
  }

  /// Sends a message that has no answer. Where it is not online, the message is dropped.
  tell(message) {
    if (this.#state == "online") this.#socket.send(JSON.stringify(message))
  }

  /// Sends a message, and gives its answer. A ServerError where that is an error, a LostError where it does not come.
  request(message) {
    if (this.#state != "online") return Promise.reject(new LostError())
    const id = ++this.#count
    const answer = new Promise((resolve, reject) => this.#waiting.set(id, {resolve, reject}))
    this.#socket.send(JSON.stringify({...message, id}))
    return answer
  }

  close() { this.#end(null) }

  // ---- the socket

  async #open() {
    const {url, token, WebSocket} = this.#options
    this.#isOpening = true
    try {
      const text = typeof token == "function" ? await token(this.#refusedTokens > 0) : token
      if (this.#state == "closed") return
      this.#listen(new WebSocket(url, ["gezhufet", `token.${text}`]))
    } catch (error) {
      this.#options.onError(error)
      if (this.#state != "closed") this.#later()
    } finally {
      this.#isOpening = false
    }
  }

  // A socket that is no longer this one's has no say.
  #listen(socket) {
    const mine = handle => event => { if (this.#socket === socket) handle(event) }
    this.#socket = socket
    socket.onopen = mine(() => this.#greet())
    socket.onmessage = mine(({data}) => this.#read(data))
    socket.onclose = mine(() => this.#lost())
    socket.onerror = () => {}
  }

  #greet() {
    this.#heard = Date.now()
    const {version, epoch, ...others} = this.#options.greeting()
    const known = this.#isAnew ? {version: null, epoch: null, ticket: null} : {version, epoch, ticket: this.#ticket}
    this.#socket.send(JSON.stringify({op: "hello", name: null, color: null, ...others, ...known}))
    this.#watch()
  }

  #read(data) {
    this.#heard = Date.now()
    let message
    try {
      message = JSON.parse(data)
    } catch (error) {
      return this.#options.onError(error)
    }
    const {op, id} = message
    if (op == "welcome") return this.#welcomed(message)
    if (op == "pong") return undefined
    if (op == "token") return this.#renewBefore(message.expires)
    if (op == "bye") return this.#bye(message)
    if (op == "answer" || (op == "error" && id !== undefined)) return this.#answered(message)
    if (op == "error") return this.#failed(new ServerError(message))
    return this.#options.onMessage(message)
  }

  #welcomed(welcome) {
    this.#ticket = welcome.ticket
    this.#isAnew = false
    this.#refusedTokens = 0
    this.#wait = FIRST_WAIT
    this.#renewBefore(welcome.expires)
    try {
      this.#options.onWelcome(welcome)
    } catch (error) {
      return this.#end(error)
    }
    if (this.#state == "closed") return
    this.#become("online")
    for (const resolve of this.#online.splice(0)) resolve()
  }

  #answered({op, id, ...answer}) {
    const taker = this.#waiting.get(id)
    this.#waiting.delete(id)
    if (op == "error") taker?.reject(new ServerError(answer))
    else taker?.resolve(answer.answer)
  }

  // The socket is closed by the server after those that end the connection.
  #failed(error) {
    this.#options.onError(error)
    if (error.code == "token" && ++this.#refusedTokens > 2) this.#end(error)
    else if (FINAL.has(error.code)) this.#end(error)
    else if (ANEW.has(error.code)) this.#isAnew = true
    else if (error.retry) this.#wait = Math.max(this.#wait, error.retry)
  }

  #bye({retry}) {
    if (retry) this.#wait = 2 * retry
  }

  #lost() {
    this.#socket = null
    this.#refuseAll()
    if (this.#state != "closed") this.#later()
  }

  #refuseAll() {
    const waiting = [...this.#waiting.values()]
    this.#waiting.clear()
    for (const {reject} of waiting) reject(new LostError())
  }

  // ---- time

  #later() {
    this.#become("offline")
    this.#clear()
    const wait = this.#wait * (0.5 + 0.5 * Math.random())
    this.#wait = Math.min(2 * this.#wait, LAST_WAIT)
    this.#timers.open = setTimeout(() => this.#open(), wait)
  }

  // The machine has a network again.
  #retry = () => {
    if (this.#state != "offline" || this.#socket || this.#isOpening) return
    this.#clear()
    this.#wait = FIRST_WAIT
    this.#open()
  }

  // A connection may be gone without a word. A page that is not seen may come to look once a minute: it asks before it takes it as gone.
  #watch() {
    let asked = 0
    clearInterval(this.#timers.watch)
    this.#timers.watch = setInterval(() => {
      const now = Date.now()
      if (now - this.#heard <= SILENCE) return
      if (asked <= this.#heard) {
        asked = now
        this.tell({op: "ping"})
      } else if (now - asked >= PATIENCE) this.#drop()
    }, PATIENCE / 2)
  }

  #drop = () => {
    const socket = this.#socket
    if (!socket) return
    this.#lost()
    socket.close()
  }

  #renewBefore(expires) {
    clearTimeout(this.#timers.renew)
    if (expires === null || expires === undefined || typeof this.#options.token != "function") return
    const wait = Math.min(Math.max(expires - Date.now() - BEFORE_END, 1000), LONGEST_TIMER)
    this.#timers.renew = setTimeout(() => this.#renew(), wait)
  }

  async #renew() {
    try {
      this.tell({op: "token", token: await this.#options.token(true)})
    } catch (error) {
      this.#options.onError(error)
    }
  }

  #clear() {
    for (const timer of Object.values(this.#timers)) clearTimeout(timer)
    this.#timers = {}
  }

  #become(state, error = null) {
    if (this.#state == state && !error) return
    this.#state = state
    this.#error = error
    this.#options.onState?.(state, error)
  }

  #end(error) {
    if (this.#state == "closed") return
    this.#clear()
    globalThis.removeEventListener?.("online", this.#retry)
    globalThis.removeEventListener?.("offline", this.#drop)
    const socket = this.#socket
    this.#socket = null
    this.#refuseAll()
    this.#become("closed", error)
    socket?.close(1000)
  }
}
