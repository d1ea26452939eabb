// A house of many documents, in this process: each has the log of its steps, under a schema that has a name.

import {named} from "./client.js"
import {ForgottenError, LackError, VersionError} from "./errors.js"
import {isSchema, judged, lineOfDocument, lineOfSchema, Talk} from "./talk.js"

// No log is longer.
const LAST = 4294967295

const jsonOf = value => JSON.stringify(value ?? null)

// Gives an answer that has a key of one that says what was asked, or the error that it is instead.
function having(answer, ...keys) {
  judged(answer)
  if (keys.some(key => answer[key] !== undefined)) return answer
  if (answer.none !== undefined) throw new LackError(answer.none)
  if (answer.from !== undefined) throw new ForgottenError(answer.from)
  throw new VersionError(answer.version)
}

/// A house; see `openHouse`.
export class House {
  #talk
  #Step
  // The schemas that were given as ProseMirror's, by their names, and of each open document its schema's name.
  #schemas = new Map()
  #kinds = new Map()

  /// Opens a house in an engine. Where `Step` is given, ProseMirror's class, documents give steps of it.
  constructor(engine, {Step} = {}) {
    this.#Step = Step
    this.#talk = new Talk(engine, "house", engine.openHouse())
  }

  /// The engine that it is in.
  get engine() { return this.#talk.engine }

  /// Gives a schema a name, which it may be given again: ProseMirror's `Schema`, or its JSON. A FaultError where it has a fault, with
  /// code 23 for a name of another form or of another schema; a LackError for a 1,025th schema.
  nameSchema(name, schema) {
    having(this.#told(`{"op":"schema","name":${jsonOf(name)},"schema":${lineOfSchema(schema)}}`), "schema")
    if (isSchema(schema)) this.#schemas.set(name, schema)
  }

  /// Opens a document of the schema that has this name; its log begins at `version`. `doc` is ProseMirror's `Node` or its JSON, and
  /// without it the top type is filled. A LackError where one of the name is open, where no schema has that name, and for a 65,537th
  /// document; a FaultError where the document has a fault, with code 23 for a name of another form.
  open(name, schema, doc = null, version = 0) {
    const words = `"in":${jsonOf(name)},"schema":${jsonOf(schema)},"version":${jsonOf(version)}`
    having(this.#told(`{"op":"open",${words},"doc":${lineOfDocument(doc)}}`), "size")
    this.#kinds.set(name, schema)
    return this.document(name)
  }

  /// The document of this name, for its calls. It may be opened later.
  document(name) { return new HouseDocument(this, name, this.#Step, () => this.#schemas.get(this.#kinds.get(name))) }

  /// The open documents, in the order in which they were opened, each as `{from, in, schema, size, version}`: the first kept version, the
  /// name, its schema's name, how many tokens it has, and its version.
  documents() { return having(this.ask({op: "documents"}), "documents").documents }

  /// `{documents, entries, schemas, tokens}`: how many of each there are.
  statistics() { return having(this.ask({op: "statistics"}), "documents") }

  /// The answer to a message, both as JSON values, as docs/use/HOUSE.md describes them. A fault is an answer too.
  ask(message) { return JSON.parse(this.tell(JSON.stringify(message))) }

  /// The answer to a line, both texts without their LF. A fault is an answer too.
  tell(line) {
    const answer = this.#talk.tell(line)
    if (answer.startsWith('{"size":')) {
      const {in: name, schema} = JSON.parse(line)
      this.#kinds.set(name, schema)
    } else if (answer.startsWith('{"closed":')) this.#kinds.delete(JSON.parse(answer).closed)
    return answer
  }

  /// Lets all documents and their logs go. Later calls throw an EndedError.
  close() { this.#talk.close() }

  #told(line) { return JSON.parse(this.#talk.tell(line)) }
}

/// A document of a house. A call throws a LackError where none of its name is open, and where a version was let go a ForgottenError.
class HouseDocument {
  #house
  #name
  #Step
  #schemaOf

  constructor(house, name, Step, schemaOf) {
    this.#house = house
    this.#name = name
    this.#Step = Step
    this.#schemaOf = schemaOf
  }

  get name() { return this.#name }

  /// The version to which the log has come.
  get version() { return this.since(LAST).version }

  /// Submits steps, as of an authority: gives whether they were accepted, and the version then.
  submit({version, steps, clientID}) {
    const {accepted, version: now} = having(this.ask({op: "submit", version, clientID, steps}), "accepted", "version")
    return accepted ? {accepted: true, version: accepted.from + accepted.count} : {accepted: false, version: now}
  }

  /// The log's entries from `version` on, as of an authority.
  since(version = 0, most) {
    const {steps, clientIDs, version: now} = having(this.ask({op: "since", version, most}), "steps")
    return {steps: this.#steps(steps), clientIDs, version: now}
  }

  /// The document and its version, as it is or as it was at a version. A VersionError where it has not come so far.
  doc(version) {
    const told = having(this.ask({op: "doc", version}), "doc"), schema = this.#schemaOf()
    return {doc: schema ? schema.nodeFromJSON(told.doc) : told.doc, version: told.version}
  }

  /// Where positions of the document at the version `from` stand at the version `to`. Each is `[pos, side]`: it keeps to what comes after
  /// it by side 1, and to what comes before it by -1. Gives of each `{pos, deleted}`, as ProseMirror's `MapResult` has them. A LackError
  /// where a position is past the document's end or `to` below `from`; a VersionError where the document has not come to `to`.
  map(from, to, positions) {
    const told = having(this.ask({op: "map", from, to, positions}), "positions")
    return told.positions.map(([pos, deleted]) => ({pos, deleted}))
  }

  /// Who put each token in since the version `from`, in runs as long as can be: `{clientID, size, version}` of so many tokens that the step
  /// to the version put in, and `{size}` of such as were there before.
  authors(from) { return having(this.ask({op: "authors", from}), "authors").authors }

  /// Takes `count` steps of the log from the version `from` on back, whatever came since, in the client's name. Gives `{version, steps,
  /// apart}`: the steps, maybe none, stand in the log from `version` on; what `apart` says docs/use/HOUSE.md has. A VersionError where
  /// the log has not so many, and a RefusedError where a step does not apply, whose `index` is of the `count`.
  revert({clientID, from, count}) {
    const {accepted, steps, apart} = having(this.ask({op: "revert", clientID, from, count}), "accepted")
    return {version: accepted.from, steps: this.#steps(steps), apart}
  }

  /// Makes an edit on the document as it is, in the client's name: one that a client's `edit` takes. Gives `{version, step}`, the place of
  /// the step in the log, or `{none}` with why there is no step. A RefusedError where it does not apply.
  edit(clientID, edit) {
    const answer = this.ask({op: "edit", clientID, edit: named(edit)})
    if (["range", "place", "fit"].includes(answer.none)) return answer
    const {accepted, steps} = having(answer, "accepted")
    return {version: accepted.from, step: this.#steps(steps)[0]}
  }

  /// Lets what lies before a version go, with its memory. Gives the first version that is kept then.
  forget(version) { return having(this.ask({op: "forget", version}), "from").from }

  /// Lets the document and its log go. The house may open another one of this name.
  close() { having(this.ask({op: "close"}), "closed") }

  /// The answer to a message, which need not name the document, both as JSON values. A fault is an answer too.
  ask(message) { return this.#house.ask({...message, in: this.#name}) }

  // Steps of ProseMirror's class, where it is at hand.
  #steps(steps) {
    const schema = this.#schemaOf()
    return this.#Step && schema ? steps.map(it => this.#Step.fromJSON(schema, it)) : steps
  }
}
