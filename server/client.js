// The client of the server: an editor of ProseMirror's joins a document. Rebasing and undo are the engine's, by the plugin of
// bindings/js/prosemirror; this connects it, and brings comments and the others who are there. docs/use/EMBEDDING-SERVER.md describes it.
//
//   const session = await joinDocument({url, token, schema, engine, packages})
//   const view = new EditorView(place, {state: session.createState([keymap(..)])})

import {pluginOf} from "../bindings/js/prosemirror/plugin.js"
import {schemaLine} from "../bindings/js/src/lines.js"
import {Comments} from "./client/comments.js"
import {Connection} from "./client/connection.js"
import {LostError, ServerError} from "./client/errors.js"
import {entriesOf, Log} from "./client/log.js"
import {People} from "./client/people.js"
import {sorted} from "./client/values.js"

export {LostError, ServerError} from "./client/errors.js"

const ignore = () => {}
const HANDLERS = ["onConnection", "onPeople", "onComments", "onChoose", "onGrow", "onReset", "onRefuse", "onError"]

// The bytes that a token of a slice has at most, but for attributes, and those of a message around its steps.
const LONGEST_TOKEN = 100, AROUND = 200

const pause = milliseconds => new Promise(resolve => setTimeout(resolve, milliseconds))

/// Joins a document. It comes once the server has greeted, and fails with a ServerError where the server does not let it in.
export function joinDocument(options) {
  return new Promise((resolve, reject) => new Session(options, resolve, reject))
}

class Session {
  #options
  #connection
  #pm
  #collab
  #plugins = []
  #begun
  #isClosed = false

  /// See `joinDocument`. `begun` is told the session, or `failed` why there is none.
  constructor(options, begun, failed) {
    this.#options = {...Object.fromEntries(HANDLERS.map(it => [it, ignore])), ...options}
    this.#pm = pluginOf(options.packages)
    this.#begun = begun
    this.view = null
    this.people = new People(this, () => this.#options.onPeople(this.people.list))
    this.comments = new Comments(this, options.packages, this.#options)
    const {url, token, name = null, color = null, WebSocket = globalThis.WebSocket} = options
    this.#connection = new Connection({
      url, token, WebSocket,
      greeting: () => ({name, color, version: this.log?.version ?? null, epoch: this.epoch ?? null}),
      onWelcome: welcome => this.#welcome(welcome),
      onMessage: message => this.#read(message),
      onState: (state, error) => {
        if (state == "closed" && !this.log) failed(error)
        else this.#options.onConnection(state, error)
      },
      onError: error => this.#options.onError(error),
    })
  }

  // ---- what it is

  /// The calls of the plugin: `undo`, `redo`, `undoChange` and the others.
  get pm() { return this.#pm }
  get connection() { return this.#connection.state }
  get schema() { return this.#options.schema }
  get packages() { return this.#options.packages }
  get mayWrite() { return this.right == "write" }

  /// Whether a comment or a reply is the user's own: an ID of a client begins with its user's.
  isOwn({author}) { return String(this.clientID).startsWith(`${author}~`) }

  /// How many steps the server has not confirmed.
  get pending() { return this.view ? this.#pm.getPending(this.view.state).length : 0 }

  /// Whether the editor's document is that of the log's last version that is known here.
  get isSettled() { return this.view !== null && this.pending == 0 && this.#pm.getVersion(this.view.state) == this.log.version }

  /// A state for the view, of the document as the server has it, with these plugins behind the session's own.
  createState(plugins = []) {
    this.#plugins = plugins
    const all = [this.#collab, this.comments.plugin, this.#watch(), ...plugins]
    return this.packages.EditorState.create({doc: this.doc, plugins: all})
  }

  /// Leaves the document. What is not confirmed is lost.
  close() {
    this.#isClosed = true
    this.#connection.close()
    this.client?.close()
  }

  // ---- the editor

  // Learns of the view, and of what changes in it.
  #watch() {
    const {Plugin} = this.packages
    return new Plugin({
      view: view => {
        this.view = view
        queueMicrotask(() => this.#attached())
        return {update: () => this.comments.touch()}
      },
      // What the plugin itself does to the view, the engine has already.
      filterTransaction: tr => tr.getMeta(this.#collab) !== undefined || tr.steps.every(it => this.#isSendable(it)),
      props: {
        editable: () => this.mayWrite,
        handleDOMEvents: {
          focus: () => this.people.focus(true),
          blur: () => this.people.focus(false),
        },
      },
    })
  }

  // A step that is too long for a message could never be sent, nor what came after it.
  #isSendable(step) {
    if ((step.slice?.size ?? 0) < this.limits.bytes / LONGEST_TOKEN || this.#sizeOf({steps: [step]}) <= this.limits.bytes) return true
    this.#options.onRefuse(step, new ServerError({code: "too-long", message: "that is more at once than the server takes"}))
    return false
  }

  // The bytes of a message, and some for its other fields.
  #sizeOf(message) { return new TextEncoder().encode(JSON.stringify(message)).length + AROUND }

  // The log may have grown since the greeting.
  #attached() {
    this.people.showAll()
    this.comments.touch()
    if (this.log.version > this.#pm.getVersion(this.view.state)) this.#pm.pull(this.view)
  }

  #begin({doc, version, epoch, clientID}) {
    const {engine, schema, packages, newGroupDelay} = this.#options
    const {Step} = packages
    this.doc = schema.nodeFromJSON(doc)
    this.first = null
    this.epoch = epoch
    this.clientID = clientID
    this.client?.close()
    this.client = engine.openClient({schema, doc: this.doc, version, clientID}, {Step})
    this.log = new Log(version, step => Step.fromJSON(schema, step).getMap())
    this.#collab = this.#pm.collab({
      client: this.client, newGroupDelay,
      send: message => this.#send(message),
      sendCursor: cursor => this.people.sendCursor(cursor),
      onRefuse: (step, error) => this.#options.onRefuse(step, error),
      onError: error => { if (!(error instanceof LostError)) this.#options.onError(error) },
    })
  }

  // ---- the server

  #welcome(welcome) {
    const {schema, doc, right, limits, name, color, version} = welcome
    if (JSON.stringify(sorted(JSON.parse(schemaLine(this.schema)))) != JSON.stringify(sorted(schema)))
      throw new Error(`the document has the schema ${welcome.schemaName}, which is not the editor's`)
    Object.assign(this, {right, limits, name, color, length: version})
    const isFirst = !this.log, lost = doc ? this.#unconfirmed() : null
    if (doc) this.#begin(welcome)
    if (doc && !isFirst) this.#reset(lost)
    this.people.begin(welcome.present)
    this.comments.begin(welcome.comments)
    if (isFirst) this.#begun(this)
  }

  // The server has not what the editor was at: it begins anew with the server's document. What was not confirmed is told as lost.
  #reset({doc, steps}) {
    this.view?.updateState(this.createState(this.#plugins))
    this.#options.onReset(doc, steps)
  }

  // The steps that the server has not confirmed, and the document with them: null where there are none.
  #unconfirmed() {
    const {steps} = this.pending ? this.client.compose() : {steps: []}
    return {doc: steps.length ? this.view.state.doc : null, steps}
  }

  #read(message) {
    const {op} = message
    if (op == "entries") this.#receive(message.entries)
    else if (op == "presence" || op == "left") this.people.read(message)
    else if (op == "comment" || op == "uncomment") this.comments.read(message)
  }

  #receive(entries) {
    this.#learn(entries)
    if (this.view) this.#pm.receive(this.view, entries)
  }

  // The events of own entries are known by the pending steps that they confirm.
  #learn(answer) {
    const pending = this.view ? this.#pm.getPending(this.view.state) : []
    const first = answer.version - answer.steps.length, entries = entriesOf(answer)
    const own = entries.filter((it, i) => first + i >= this.log.version && it.clientID === this.clientID)
    own.forEach((it, i) => { it.event = pending[i]?.event ?? 0 })
    this.#grow(first, entries)
  }

  #grow(version, entries) {
    this.log.grow(version, entries)
    this.length = Math.max(this.length, this.log.version)
    this.comments.touch()
    this.#options.onGrow()
  }

  // What could not be sent is composed anew by the plugin, since the editor may have changed: it is told the log's length.
  async #send(message) {
    if (this.connection != "online") {
      await this.#connection.online()
      return {version: this.length}
    }
    const events = this.#pm.getPending(this.view.state).map(it => it.event)
    try {
      const answer = await this.#connection.request(this.#fitting(message))
      this.#accept(message, events, answer)
      if (message.steps && answer.version !== undefined) setTimeout(() => this.#pass())
      return answer
    } catch (error) {
      if (this.#isClosed || (!(error instanceof LostError) && !error.retry)) throw error
      if (error.retry) await pause(error.retry)
      return {version: this.length}
    }
  }

  // Where nothing was left of what has to be sent again, the server need not wait for it.
  #pass() {
    if (this.view && this.pending == 0) this.tell({op: "pass"})
  }

  // As many steps as the server takes in one message, one at least.
  #fitting(message) {
    if (!message.steps) return message
    let {steps} = message
    while (steps.length > 1 && this.#sizeOf({...message, steps}) > this.limits.bytes) steps = steps.slice(0, Math.ceil(steps.length / 2))
    return {...message, steps}
  }

  #accept({steps, version}, events, answer) {
    if (answer.accepted) {
      const {from, count} = answer.accepted
      this.#grow(from, steps.slice(0, count).map((step, i) => ({clientID: this.clientID, step: plain(step), event: events[i]})))
    } else if (answer.steps) this.#learn(answer)
    else if (answer.version !== undefined) this.length = Math.max(this.length, answer.version)
  }

  /// Sends a message of the protocol, and gives its answer.
  request(message) { return this.#connection.request(message) }

  /// Sends a message that has no answer, where it is connected.
  tell(message) { this.#connection.tell(message) }

  // ---- what was before

  /// Gets the log's entries from the first on, after which `log.first` is 0. Gives the document before the first.
  async history() {
    if (!this.first) {
      const {doc} = await this.#get("first")
      this.first = this.schema.nodeFromJSON(doc)
    }
    while (this.log.first > 0) {
      const to = this.log.first, found = []
      for (let from = 0; from < to;) {
        const part = await this.#get(`entries?from=${from}&to=${to}`)
        if (part.version <= from) throw new Error("the server has not the log's first entries")
        found.push(...entriesOf(part))
        from = part.version
      }
      if (to == this.log.first) this.log.precede(found.slice(0, to))
    }
    return this.first
  }

  async #get(path) {
    const {url, token} = this.#options
    const address = new URL(`${new URL(url).pathname}/${path}`, url.replace(/^ws/, "http"))
    const text = typeof token == "function" ? await token() : token
    const response = await fetch(address, {headers: {Authorization: `Bearer ${text}`}})
    const answer = await response.json()
    if (!response.ok) throw new ServerError(answer.error)
    if (answer.epoch !== this.epoch) throw new Error("the server has another log by now")
    return answer
  }
}

const plain = step => (typeof step.toJSON == "function" ? step.toJSON() : step)
