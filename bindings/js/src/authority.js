// An authority over one document, in this process: it keeps the document and the log of its steps, and answers what editors send.

import {isSchema, judged, lineOfDocument, lineOfSchema, Talk} from "./talk.js"

export class Authority {
  #talk
  #schema
  #Step
  #version = 0

  /// Opens an authority in an engine. `schema` and `doc` are ProseMirror's `Schema` and `Node`, or their JSON; without `doc` the
  /// top type is filled. Where `Step` is given, ProseMirror's class, `since` gives steps of it.
  constructor(engine, schema, doc = null, {Step} = {}) {
    this.#schema = isSchema(schema) ? schema : null
    this.#Step = Step
    this.#talk = new Talk(engine, "authority", engine.open(lineOfSchema(schema), lineOfDocument(doc)))
  }

  /// The number of steps in the log.
  get version() { return this.#version }

  /// The engine that it is in.
  get engine() { return this.#talk.engine }

  /// Submits steps that were made at `version`, as `sendableSteps` of prosemirror-collab gives them. Where `version` is the log's,
  /// they are appended; else nothing changes, and the client takes what it lacks (`since`) and submits again. Gives whether they
  /// were accepted, and the log's version. A RefusedError where a step does not apply: then none of them is appended.
  submit({version, steps, clientID}) {
    const answer = judged(this.ask({op: "submit", version, clientID, steps}))
    return {accepted: answer.accepted !== undefined, version: this.#version}
  }

  /// The log's entries from `version` on: their steps, the ID of the client that made each, and the log's version. With `most` at
  /// most so many, and the version after the last of them.
  since(version = 0, most) {
    const {steps, clientIDs, version: now} = judged(this.ask({op: "since", version, most}))
    return {steps: this.#Step && this.#schema ? steps.map(it => this.#Step.fromJSON(this.#schema, it)) : steps, clientIDs, version: now}
  }

  /// The document and its version.
  doc() {
    const {doc, version} = judged(this.ask({op: "doc"}))
    return {doc: this.#schema ? this.#schema.nodeFromJSON(doc) : doc, version}
  }

  /// The answer to a message, both as JSON values, as docs/use/LIVE.md describes them. A fault is an answer too.
  ask(message) { return this.#learned(this.#talk.ask(message)) }

  /// The answer to a line, both texts without their LF. A fault is an answer too.
  tell(line) {
    const answer = this.#talk.tell(line)
    if (answer.startsWith('{"accepted":')) this.#learned(JSON.parse(answer))
    return answer
  }

  /// Lets the document and its log go. Later calls throw an EndedError.
  close() { this.#talk.close() }

  // Only an accepted submission makes the log longer.
  #learned(answer) {
    if (answer.accepted) this.#version = answer.accepted.from + answer.accepted.count
    return answer
  }
}
