// An editor's client in this process: it keeps the document with the steps that the authority's log need not have yet, carries these
// over others' steps, and undoes. What it sends to the authority, and how the answers come back, is its user's matter.

import {isSchema, judged, lineOf, lineOfDocument, lineOfSchema, Talk} from "./talk.js"

// The bytes of a line, its LF not counted. Some are left for what is around the steps of a message or an answer.
const LINE_LIMIT = 1048576
const AROUND = 256

const encoder = new TextEncoder()
const bytesOf = value => encoder.encode(JSON.stringify(value)).length

// How many of the items from one on have so many bytes of JSON together, at least one where there is one.
function fitting(items, from, most) {
  let [to, size] = [from, 0]
  while (to < items.length && ((size += bytesOf(items[to]) + 1) <= most || to == from)) to++
  return to - from
}

// A text of three bytes a unit is the longest.
const isShort = value => 3 * JSON.stringify(value).length <= LINE_LIMIT - AROUND

/// An edit in which ProseMirror's `NodeType` is told by its name.
export const named = edit => (typeof edit?.type?.name == "string" ? {...edit, type: edit.type.name} : edit)

/// A client of one document; see `openClient`.
export class Client {
  #talk
  #schema
  #Step
  #idBytes

  /// Opens a client in an engine. `doc` is the authority's document at `version`, and `clientID` a text or a whole number that no
  /// other client of it has.
  constructor(engine, {schema, doc = null, version = 0, clientID}, {Step} = {}) {
    this.#schema = isSchema(schema) ? schema : null
    this.#Step = Step
    this.#idBytes = bytesOf(clientID ?? null)
    const lines = [lineOfSchema(schema), lineOfDocument(doc), JSON.stringify({clientID, version})]
    this.#talk = new Talk(engine, "client", engine.openClient(...lines))
  }

  /// The engine that it is in.
  get engine() { return this.#talk.engine }

  // ---- edits

  /// Makes an edit, which is an object with `op` as docs/use/FORMATS.md describes edits, and maybe `event`, a number: edits with
  /// one number, one after another, are undone together. Gives `{made: 1, serial, steps}`, or `{none}` with why there is no step:
  /// `"range"`, `"place"` or `"fit"`. A RefusedError where its step does not apply.
  edit(edit) { return this.#given(judged(this.#talk.ask(named(edit)))) }

  /// Makes this very step.
  step(step, event) { return this.edit({op: "step", step, event}) }

  /// What an edit would give, without a serial, or `{refused}` with the reason. Nothing changes.
  can(edit) { return this.#given(judged(this.#talk.ask({op: "can", edit: named(edit)}), true)) }

  /// Undoes the last event, as far as it stands: `{made, serials, steps}`, maybe of no step, or `{none: "event"}`.
  undo() { return this.#asked({op: "undo"}) }

  /// Makes the last undone event again.
  redo() { return this.#asked({op: "redo"}) }

  /// Undoes the last event of this number, and leaves what came later.
  undoEvent(event) { return this.#asked({op: "undoevent", event}) }

  /// Sets a cursor, which moves with all steps: past what is put in at its very place by side 1, and not by -1. Gives its number
  /// and place, or `{none: "range"}`. There are 64 at most; one more is a FaultError.
  cursor(pos, side = 1) { return this.#asked({op: "cursor", pos, side}) }

  // ---- the exchange with the authority

  /// The message that submits the pending steps, as many as a line holds; without steps where nothing is pending.
  compose() {
    const {message} = this.#asked({op: "compose"})
    if (isShort(message)) return message
    const count = fitting(message.steps, 0, LINE_LIMIT - AROUND - this.#idBytes)
    return {...message, steps: message.steps.slice(0, count)}
  }

  /// The message that asks for what the log has past the client's version.
  ask() { return this.#asked({op: "ask"}).message }

  /// Takes an answer of the authority, late or twice as well, as it came: a JSON value, or its text. What it gives docs/embed/JAVASCRIPT.md
  /// says. A RefusedError where one of the log's steps does not apply. An answer that is longer than a line is a FaultError; see
  /// `parts`.
  take(answer) {
    const line = typeof answer == "string" ? `{"op":"take","answer":${lineOf(answer)}}` : JSON.stringify({op: "take", answer})
    return this.#given(judged(JSON.parse(this.#talk.tell(line))))
  }

  /// An answer with more entries than a line holds as several, which are to be taken in turn; any other as the only one.
  parts(answer) {
    if (!Array.isArray(answer?.steps) || isShort(answer)) return [answer]
    const {clientIDs, steps, version} = answer, first = version - steps.length, parts = []
    const entries = steps.map((step, i) => [step, clientIDs[i]])
    for (let from = 0; from < steps.length;) {
      const to = from + fitting(entries, from, LINE_LIMIT - AROUND)
      parts.push({clientIDs: clientIDs.slice(from, to), steps: steps.slice(from, to), version: first + to})
      from = to
    }
    return parts
  }

  // ---- what it is

  /// The document, pending steps included, and the version: how many steps of the log the client has.
  doc() {
    const {doc, version} = this.#asked({op: "doc"})
    return {doc: this.#schema ? this.#schema.nodeFromJSON(doc) : doc, version}
  }

  /// `{clientID, cursors, pending, redo, size, undo, version}`: cursors' places, how many steps are pending and events are to redo
  /// and undo, and the document's size.
  state() { return this.#asked({op: "state"}) }

  /// The answer to a line of the client's talk, both texts without their LF. A fault is an answer too.
  tell(line) { return this.#talk.tell(line) }

  /// Lets the client go. Later calls throw an EndedError.
  close() { this.#talk.close() }

  #asked(message) { return this.#given(judged(this.#talk.ask(message))) }

  // Steps of ProseMirror's class, where it is at hand.
  #given(answer) {
    if (!answer.steps || !this.#Step || !this.#schema) return answer
    return {...answer, steps: answer.steps.map(it => this.#Step.fromJSON(this.#schema, it))}
  }
}
