// Between a view and its client in the engine: what the view's document has had is told to the engine, and what the engine makes of
// answers and of undo is done to the view. One message at a time is on its way.

import {Carried, toLog} from "./cursors.js"
import {Entry} from "./entry.js"
import {Events} from "./events.js"
import {lead} from "./leading.js"

const mapOf = step => step.getMap()

// How long the log is at least, by an answer.
const lengthTold = ({accepted, version}) => (accepted ? accepted.from + accepted.count : version ?? 0)

export class Link {
  #options
  #tools
  #told = new Entry()
  #version = 0
  #length = 0
  #clientID = null
  #pending = []
  #isBehind = false
  #isSending = false
  #isMending = false
  #isOver = false
  #carried = new Carried()
  #cursor = ""

  /// `tools`: the plugin's key, and ProseMirror's `Step` and `ReplaceStep`.
  constructor(options, tools) {
    this.#options = options
    this.#tools = tools
    this.view = null
    this.events = new Events()
  }

  get client() { return this.#options.client }

  /// The root of the chain of entries with which a state begins.
  get root() { return this.#told }

  /// The log's version that the view has.
  get version() { return this.#version }

  /// The pending steps, each as `{serial, event}`; `event` is 0 of a step that undo or redo made.
  get pending() { return this.#pending.map(({serial, event}) => ({serial, event})) }

  /// Whether the engine has all that a state's document has had.
  has(state) { return this.view !== null && !this.#isOver && this.#chain(state) === this.#told }

  // ---- the view

  /// The view is there, though it may not be in its owner's hands yet.
  attach(view) {
    this.view = view
    this.#isOver = false
    const {clientID, version, size} = this.client.state()
    this.#clientID = clientID
    this.#version = version
    const isFresh = this.#chain(view.state) === this.#told
    queueMicrotask(() => {
      if (this.view !== view) return
      // A document of another length is not the client's.
      if (isFresh && size != view.state.doc.content.size && this.has(view.state)) this.mend()
      else this.update()
    })
    return {update: () => this.update(), destroy: () => this.#end()}
  }

  #end() {
    this.#isOver = true
    this.view = null
  }

  #chain(state) { return this.#tools.key.getState(state).last }

  /// Tells the engine what the view's document has had since, and sends it.
  update() {
    if (this.#isMending) return
    this.#catchUp()
    this.#tellCursor()
    this.exchange()
  }

  // A state that does not go on from what the engine has is led back to that.
  #catchUp() {
    const fresh = this.#chain(this.view.state).since(this.#told)
    if (fresh) fresh.every(entry => this.#tell(entry))
    else this.mend()
  }

  #tell(entry) {
    const {step, doc, event, isQuiet} = entry
    try {
      const {serial} = this.client.step(step, event)
      this.#pending.push({serial, event, map: mapOf(step)})
    } catch (error) {
      this.#lead(doc)
      this.#options.onRefuse(step, error)
      return false
    }
    this.events.made(event, isQuiet)
    this.#told = entry
    entry.cut()
    return true
  }

  /// Dispatches a transaction that has the view's document come to be the engine's.
  #dispatch(tr, told = {}) {
    const root = new Entry()
    this.#told = root
    this.view.dispatch(tr.setMeta(this.#tools.key, {...told, root}))
  }

  // Leads the view to a document that the engine has.
  #lead(doc) {
    const tr = this.view.state.tr.setMeta("addToHistory", false)
    if (!lead(tr, doc, this.#tools.ReplaceStep)) this.#options.onError(new Error("the view does not come to the engine's document"))
    this.#dispatch(tr)
  }

  /// Has the view show the engine's document, whatever it shows. What other plugins append to that is told too.
  mend() {
    if (this.#isOver) return
    this.#isMending = true
    try {
      this.#lead(this.#document())
    } finally {
      this.#isMending = false
    }
    if (this.#chain(this.view.state).since(this.#told)) this.update()
    else this.#options.onError(new Error("the view does not take the engine's document"))
  }

  #document() {
    const {doc} = this.client.doc()
    return typeof doc.check == "function" ? doc : this.view.state.schema.nodeFromJSON(doc)
  }

  #stepsOf(steps) {
    const {Step} = this.#tools, {schema} = this.view.state
    return steps.map(it => (typeof it.apply == "function" ? it : Step.fromJSON(schema, it)))
  }

  // ---- undo

  /// Undoes an event, or makes the last undone one again where it is told none. Gives the transaction, with no step where nothing was
  /// left of the event, and null where there is no such event.
  turn(tr, event) {
    const {client, events} = this
    const isLast = event === events.done[events.done.length - 1]
    const answer = event === undefined ? client.redo() : isLast ? client.undo() : client.undoEvent(event)
    if (answer.none) return null
    if (event === undefined) events.redo(answer.made)
    else events.undo(event, answer.made)
    const steps = this.#stepsOf(answer.steps)
    steps.forEach((step, i) => this.#pending.push({serial: answer.serials[i], event: 0, map: mapOf(step)}))
    if (this.#play(tr, steps)) return tr
    this.mend()
    return null
  }

  #play(tr, steps) {
    try {
      steps.forEach(step => tr.step(step))
      return true
    } catch (error) {
      this.#options.onError(error)
      return false
    }
  }

  /// Gives a transaction of `turn` to `dispatch`.
  send(tr, dispatch) {
    this.#told = new Entry()
    dispatch(tr.setMeta(this.#tools.key, {root: this.#told, isTurn: true}))
  }

  // ---- the exchange

  /// Sends what is pending, or asks for what the log has more, until neither is left.
  async exchange() {
    if (this.#isSending) return
    this.#isSending = true
    try {
      for (let message = this.#message(); message; message = this.#message()) await this.#present(message)
    } catch (error) {
      if (!this.#isOver) this.#options.onError(error)
    } finally {
      this.#isSending = false
    }
  }

  /// Asks for what the log has more.
  pull() {
    this.#isBehind = true
    return this.exchange()
  }

  #message() {
    if (this.#isOver) return null
    if (this.#isBehind) return this.client.ask()
    return this.#pending.length ? this.client.compose() : null
  }

  // What can't be sent, or gets a fault, is sent again later.
  async #present(message) {
    let answer
    try {
      answer = await this.#options.send(message)
      if (this.#isOver) return
      if (answer.fault === undefined && !answer.refused) return this.#take(answer)
      if (answer.fault !== "memory") throw new Error(`the authority does not take a message: ${JSON.stringify(answer)}`)
    } catch (error) {
      if (!this.#isOver) this.#options.onError(error)
    }
    await new Promise(resolve => setTimeout(resolve, this.#options.pause))
  }

  /// Takes what the authority says unasked.
  receive(answer) {
    try {
      this.#take(answer)
    } catch (error) {
      this.#options.onError(error)
    }
    return this.exchange()
  }

  // Another plugin may hand on an answer before the engine knows of a transaction.
  #take(answer) {
    if (this.#isOver) return
    this.#catchUp()
    for (const part of this.client.parts(answer)) this.#takePart(part)
    this.#tellCursor()
  }

  #takePart(answer) {
    const took = this.client.take(answer), isBehind = this.#lacks(answer, took)
    this.#length = Math.max(this.#length, lengthTold(answer))
    this.#version = took.version ?? this.#version
    // What was told before this answer, and had to be left, is still lacking.
    this.#isBehind = isBehind || this.#length > this.#version
    if (took.version === undefined) return
    this.#carried.grow(this.#pending.splice(0, took.confirmed).map(it => it.map))
    if (!took.foreign) return this.#dispatch(this.view.state.tr)
    if (took.steps) this.#rebase(took)
    else this.#replace(took)
    for (const cursor of this.#carried.due(this.#version)) this.showCursor(cursor)
  }

  // Whether the log has more than what is known after this answer.
  #lacks(answer, took) {
    if (took.gap !== undefined) return true
    if (took.kept !== undefined) return answer.version > this.#version
    return took.stale !== undefined && !answer.steps && this.#isBehind
  }

  // The view goes by the steps to its new document; a step that was taken back and what became of it are mirrors.
  #rebase({back, foreign, steps, pairs, dropped}) {
    const made = this.#stepsOf(steps), maps = made.map(mapOf)
    this.#carried.grow(maps.slice(back, back + foreign))
    this.#carry(dropped, maps.slice(back + foreign))
    const {tr, storedMarks} = this.view.state
    if (!this.#play(tr, made)) return this.mend()
    for (const [i, j] of pairs) tr.mapping.setMirror(i, j)
    // What is typed next has the marks that were chosen for it, whatever others did.
    if (storedMarks) tr.setStoredMarks(storedMarks)
    this.#dispatch(tr.setMeta("rebased", back).setMeta("addToHistory", false), {foreign: [back, back + foreign]})
  }

  #replace({dropped}) {
    this.#carried.forget()
    this.#carry(dropped, this.#stepsOf(this.client.compose().steps).map(mapOf))
    this.mend()
  }

  // What the pending steps are now. A message may have fewer than there are.
  #carry(dropped, maps) {
    const gone = new Set(dropped)
    const left = this.#pending.filter(it => !gone.has(it.serial))
    this.#pending = left.map((it, i) => ({...it, map: maps[i] || it.map}))
  }

  // ---- cursors

  /// Shows another's cursor, `{clientID, version, anchor, head, ..}`; without `head` there is none any more.
  showCursor(cursor) {
    const {clientID, head} = cursor
    if (this.#isOver || clientID === this.#clientID) return
    const placed = head === undefined ? undefined : this.#carried.place(cursor, this.#version, this.#pending.map(it => it.map))
    if (placed !== null) this.view.dispatch(this.view.state.tr.setMeta(this.#tools.key, {cursor: [clientID, placed]}))
  }

  #tellCursor() {
    const {sendCursor, cursor} = this.#options
    if (!sendCursor || !this.has(this.view.state)) return
    const {anchor, head} = this.view.state.selection
    const told = toLog({...cursor, clientID: this.#clientID, version: this.#version, anchor, head}, this.#pending.map(it => it.map))
    const text = JSON.stringify(told)
    if (text == this.#cursor) return
    this.#cursor = text
    sendCursor(told)
  }
}
