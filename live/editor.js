// An editor over the live authority, without the way by which its lines get there: an editor state of ProseMirror's, what it sends
// next, and what it makes of an answer. Answers may come late, in another order, twice or never: what the editor knows already is
// passed over, and what it missed it asks for.

"use strict"

const {EditorState} = require("prosemirror-state")
const {Step} = require("prosemirror-transform")
const {collab, getVersion, getUnconfirmed, sendableSteps, receiveTransaction, dropTransaction} = require("./collab")
const {undoHistory} = require("./undo")

// The bytes of a line that the authority reads, its LF not counted.
const LINE_LIMIT = 1048576

const bytesOf = value => new TextEncoder().encode(JSON.stringify(value)).length

/// A message to the authority: its line as JSON, and of a submission the steps themselves, by which a refused one is found again.
class Message {
  constructor(line, steps = []) {
    this.line = line
    this.steps = steps
  }
}

// The submission of as many steps as a line holds, at least one.
function submission({version, clientID, steps}, most) {
  const line = {op: "submit", version, clientID, steps: []}
  let size = bytesOf(line)
  for (const step of steps.slice(0, most)) {
    const json = step.toJSON()
    size += bytesOf(json) + 1
    if (line.steps.length > 0 && size > LINE_LIMIT) break
    line.steps.push(json)
  }
  return new Message(line, steps.slice(0, line.steps.length))
}

class Editor {
  /// `doc` is the authority's document at `version`. `onChange(state, tr)` is called with each new state. `onDrop(step, why)` is
  /// called where the authority does not take a step: `why` is its answer. Other plugins may be given.
  constructor({doc, version, clientID, plugins = [], onChange = () => {}, onDrop = () => {}, undo = {}}) {
    this.clientID = clientID
    this.state = EditorState.create({doc, plugins: [...plugins, collab({version, clientID}), undoHistory(undo)]})
    this.onChange = onChange
    this.onDrop = onDrop
    this.isBehind = false
    this.mostSteps = Infinity
  }

  get version() { return getVersion(this.state) }

  get unconfirmed() { return getUnconfirmed(this.state) }

  dispatch(tr) {
    this.state = this.state.apply(tr)
    this.onChange(this.state, tr)
  }

  /// What the editor sends next: its unconfirmed steps, or else the question for the log after its version.
  compose() {
    const sendable = this.isBehind ? null : sendableSteps(this.state)
    return sendable ? submission(sendable, this.mostSteps) : this.ask()
  }

  ask() { return new Message({op: "since", version: this.version}) }

  /// Takes the authority's answer to a message, and says what came of it: `confirmed`, `received`, `dropped`, `behind` (the log has
  /// steps that are not known yet), `fault` (it is to be sent again otherwise), `memory` (it is to be sent again later), `gone` (a house
  /// has let go what the editor asked for, which begins anew), `closed` (the house has no such document), or `stale` where the answer
  /// says nothing new.
  take(message, answer) {
    if (answer.steps) return this.receive(answer)
    if (answer.accepted) return this.confirm(answer.accepted)
    if (answer.refused) return this.drop(message, answer.refused.index, answer)
    if (answer.fault !== undefined) return this.takeFault(message, answer)
    if (answer.none !== undefined) return "closed"
    if (answer.from !== undefined) return answer.from > this.version ? "gone" : "stale"
    return this.learn(answer.version)
  }

  learn(version) {
    if (version <= this.version) return "stale"
    this.isBehind = true
    return "behind"
  }

  confirm({from, count}) {
    if (from != this.version) return "stale"
    const own = this.unconfirmed.slice(0, count).map(it => it.step)
    this.dispatch(receiveTransaction(this.state, own, own.map(() => this.clientID)))
    if (this.unconfirmed.length == 0) this.mostSteps = Infinity
    return "confirmed"
  }

  receive({version, steps, clientIDs}) {
    const known = this.version - (version - steps.length)
    if (known < 0 || version < this.version) return "stale"
    this.isBehind = false
    if (version == this.version) return "stale"
    const news = steps.slice(known).map(json => Step.fromJSON(this.state.schema, json))
    this.dispatch(receiveTransaction(this.state, news, clientIDs.slice(known)))
    return "received"
  }

  // A step is dropped only as it was sent: one that was rebased since is another, which the authority may well take.
  drop(message, index, answer) {
    const at = this.unconfirmed.findIndex(it => it.step === message.steps[index])
    if (at < 0 || message.line.version != this.version) return "stale"
    const {step} = this.unconfirmed[at]
    this.dispatch(dropTransaction(this.state, at))
    this.mostSteps = Infinity
    this.onDrop(step, answer)
    return "dropped"
  }

  // A fault doesn't say which step has it: they are sent one by one until it is found.
  takeFault(message, answer) {
    if (answer.fault === "memory") return "memory"
    if (message.steps.length == 1) return this.drop(message, 0, answer)
    this.mostSteps = 1
    return "fault"
  }
}

module.exports = {Editor, Message}
