// One connection to one document: what comes is measured and done one after the other, and what goes out goes at the reader's pace.

import {Refusal, refusalOf} from "./errors.js"
import {frameOf} from "./frames.js"
import {said} from "./log.js"
import {OPS, greet} from "./ops.js"
import {Outbox} from "./outbox.js"
import {isCount, readMessage} from "./reading.js"
import {rightOf} from "./rights.js"

const MOST_WAITING = 64
const LONGEST_TIMER = 2_147_483_647

/** Errors after which nothing more is said. */
const LAST = new Set(["hello", "too-long", "abuse", "internal", "stopping"])

export class Connection {
  #request
  #outbox
  #leave = () => {}
  #work = Promise.resolve()
  #waiting = 0
  #timers = {}
  #isFetching = false
  #isOver = false

  /**
   * @param {import("ws").WebSocket} socket
   * @param {{name: string, schema: string | null, token: string | null, request: import("node:http").IncomingMessage}} asked
   * @param {import("./server.js").Parts} server
   */
  constructor(socket, {name, schema, token, request}, server) {
    this.#request = request
    this.server = server
    this.socket = socket
    this.name = name
    this.schema = schema
    /** What the hook of access gave. */
    this.given = null
    /** @type {import("./document.js").Document | null} since the welcome */
    this.document = null
    this.clientID = null
    /** The version of the log up to which it was told. */
    this.sent = 0
    this.isSubmitting = false
    this.heard = Date.now()
    const onSlow = () => this.end(new Refusal("slow", "you read too slowly"))
    const onReady = () => {
      this.#hear()
      this.pump()
    }
    this.#outbox = new Outbox({socket, wire: request.socket}, server, {onReady, onSlow})
    socket.on("message", (data, isBinary) => this.#receive(data, isBinary))
    socket.on("pong", () => { this.heard = Date.now() })
    socket.on("error", error => server.log.debug("socket-fails", {document: name, ...said(error)}))
    socket.on("close", code => this.#closed(code))
    this.#timers.hello = setTimeout(() => this.end(new Refusal("hello", "no hello came")), server.settings.helloSeconds * 1000)
    this.#inTurn(() => this.#enter(token), undefined)
  }

  get isSlow() { return this.#outbox.isSlow }

  get isOver() { return this.#isOver }

  /** Done once all that came so far has been answered. */
  get settled() { return this.#work }

  // Does what comes in its turn. Where much is waiting nothing more is read.
  #inTurn(work, id) {
    if (++this.#waiting >= MOST_WAITING) this.socket.pause()
    this.#work = this.#work.then(() => this.#do(work, id))
  }

  async #do(work, id) {
    try {
      if (!this.#isOver) await work()
    } catch (error) {
      this.#refuse(error, id)
    }
    this.#waiting--
    this.#hear()
  }

  // It is heard again where it reads, and not much waits to be done for it.
  #hear() {
    if (this.socket.isPaused && this.#waiting < MOST_WAITING && !this.isSlow) this.socket.resume()
  }

  // ---- who it is

  /** Asks what a token gives. */
  access(token) { return rightOf(this.server, {request: this.#request, token, document: this.name}) }

  async #enter(token) {
    const given = await this.access(token)
    if (this.#isOver) return
    this.#leave = this.server.users.enter(given.user, this.name)
    this.renew(given)
  }

  /** It has a right from now on, to the token's end. */
  renew(given) {
    this.given = given
    clearTimeout(this.#timers.token)
    if (!given.expires) return
    const end = () => this.end(new Refusal("token", "the token has expired"))
    this.#timers.token = setTimeout(end, Math.min(Math.max(0, given.expires - Date.now()), LONGEST_TIMER))
  }

  // ---- what it says

  #receive(data, isBinary) {
    this.heard = Date.now()
    this.server.counts.received.add(data.length)
    if (this.#isOver) return
    let message = null
    try {
      if (data.length > this.server.settings.messageBytes) throw new Refusal("too-long", "the message is too long")
      message = isBinary ? null : readMessage(data)
      if (this.given) this.server.users.send(this.given.user, data.length)
      if (!message) throw new Refusal("json", "the message is no JSON object, or nests too deep")
    } catch (error) {
      this.#refuse(error, message?.id)
      return
    }
    // (what came before the server began to stop is done)
    const isLate = this.server.isStopping
    this.#inTurn(() => this.#take(message, isLate), message.id)
  }

  #take(message, isLate) {
    const {op, id, document, clientID} = message
    if (isLate) throw new Refusal("stopping", "the server stops")
    if (document !== undefined && document !== this.name) throw new Refusal("document", "the message is of another document")
    if (!this.document) {
      // (to open a document may take longer)
      clearTimeout(this.#timers.hello)
      return greet(this, message)
    }
    if (clientID !== undefined && clientID !== this.clientID) throw new Refusal("client-id", "this is not your client's ID")
    const known = Object.hasOwn(OPS, op) ? OPS[op] : null
    if (!known) throw new Refusal("op", "there is no such op")
    if (known.isAnswered && !isCount(id)) throw new Refusal("op", "the message has no id")
    if (known.writes && this.given.right != "write") throw new Refusal("read-only", "you may read this document alone")
    return known.does(this, message)
  }

  // ---- what it is told

  /** @param {Buffer} frame what `frameOf` made */
  send(frame) { this.#outbox.send(frame) }

  sayText(text) { this.send(frameOf(text)) }

  say(message) { this.sayText(JSON.stringify(message)) }

  // An error is told. Before the welcome, and where it is of the whole connection, it is the last word.
  #refuse(error, id) {
    const refusal = this.#refusal(error)
    if (LAST.has(refusal.code) || !this.document) this.end(refusal, id)
    else this.#tell(refusal, id)
  }

  #refusal(error) { return refusalOf(error, this.server.log, {document: this.name}) }

  #tell(refusal, id) {
    const {log, counts} = this.server
    counts.errors.add(1, {code: refusal.code})
    const level = refusal.cause ? "warn" : "debug"
    log[level]("refused", {document: this.name, clientID: this.clientID, ...(refusal.cause && said(refusal.cause)), code: refusal.code})
    this.say({op: "error", ...(isCount(id) && {id}), ...refusal.toJSON()})
  }

  /** It is welcome: it hears of the document from a version on. */
  join(document, clientID, sent) {
    this.document = document
    this.clientID = clientID
    this.sent = sent
    document.watchers.add(this)
    this.server.log.info("joined", {document: this.name, clientID, user: this.given.user, right: this.given.right})
  }

  /** Tells what the log has more, as far as the reader reads. While its own submission is on the way it is not told of that. */
  pump() {
    const {document} = this
    while (!this.#isHeld && document.tail.has(this.sent)) {
      const {frame, to} = document.tail.frame(this.sent, this.server.settings.messageBytes)
      this.#push(frame, to)
    }
    if (!this.#isHeld && !this.#isFetching) this.#fetch()
  }

  get #isHeld() {
    return this.#isOver || !this.document || this.isSubmitting || this.isSlow || this.sent >= this.document.version
  }

  #push(frame, to) {
    this.server.counts.pushed.add(to - this.sent)
    this.sent = to
    this.send(frame)
  }

  // What is no longer at hand is asked of the store.
  async #fetch() {
    this.#isFetching = true
    try {
      const from = this.sent, {text, to} = await this.document.entries(from)
      if (!this.#isHeld && this.sent == from) this.#push(frameOf(`{"op":"entries","entries":${text}}`), to)
    } catch (error) {
      this.end(this.#refusal(error))
    } finally {
      this.#isFetching = false
    }
    this.pump()
  }

  // ---- how it ends

  /** Says why, and closes. */
  end(refusal, id) {
    if (this.#isOver) return
    this.#tell(refusal, id)
    this.close(refusal.closes, refusal.code)
  }

  /** Closes with a code, and by force where that is not answered. */
  close(code, reason) {
    if (this.#isOver) return
    this.#over()
    this.socket.resume()
    this.socket.close(code, reason)
    this.#timers.close = setTimeout(() => this.socket.terminate(), code == 4413 ? 1_000 : 5_000)
  }

  // Nothing is done for it any more.
  #over() {
    this.#isOver = true
    this.#outbox.end()
    for (const timer of Object.values(this.#timers)) clearTimeout(timer)
    this.#leave()
    this.#leave = () => {}
    const {document} = this
    if (!document?.watchers.delete(this)) return
    document.turns.leave(this)
    if (![...document.watchers].some(it => it.clientID == this.clientID)) document.presences.leave(this.clientID)
    this.server.documents.leave(document)
  }

  #closed(code) {
    if (!this.#isOver) this.#over()
    clearTimeout(this.#timers.close)
    this.server.counts.closed.add(1, {code})
    this.server.log.info("left", {document: this.name, clientID: this.clientID, code})
    this.server.forget(this)
  }
}
