// What was: the document at each version, and what takes a change back from what the document is now. Both are the engine's, by a client
// that goes through the log and makes nothing of its own.

const EVERY = 500

export class Past {
  #session
  #engine
  #kept = new Map()

  constructor(session, engine) {
    this.#session = session
    this.#engine = engine
  }

  // A client at a version, with the document there.
  #open(version, doc) {
    const {schema, packages: {Step}} = this.#session
    return this.#engine.openClient({schema, doc, version, clientID: "reader"}, {Step})
  }

  /// The document of a version. The session's history is at hand.
  docAt(version) {
    const nearest = version - version % EVERY
    if (nearest > 0 && !this.#kept.has(nearest)) this.#kept.set(nearest, this.#through(nearest - EVERY, nearest))
    return nearest == version && nearest > 0 ? this.#kept.get(nearest) : this.#through(nearest, version)
  }

  #through(from, to) {
    const {first, log} = this.#session
    const client = this.#open(from, from == 0 ? first : this.#kept.get(from) ?? this.docAt(from))
    take(client, from, log.entries.slice(from, to).map(it => it.step))
    const {doc} = client.doc()
    client.close()
    return doc
  }

  /// The steps that take a change back from the editor's document, as far as it stands: others' and own later changes stay. The change
  /// is made by a client once more, at the version where it was made, which then takes all that came later and undoes it.
  stepsBack({at}) {
    const {log, client} = this.#session
    const steps = [...log.entries.map(it => it.step), ...client.compose().steps]
    const own = new Set(at), reviewer = this.#open(at[0], this.docAt(at[0]))
    for (let from = at[0]; from < steps.length;) {
      const isOwn = own.has(from)
      const next = isOwn ? from + 1 : at.find(it => it > from) ?? steps.length
      if (isOwn) reviewer.step(steps[from], 1)
      take(reviewer, from, steps.slice(from, next), isOwn ? "reader" : "others")
      from = next
    }
    const turned = reviewer.undoEvent(1)
    reviewer.close()
    return turned.steps ?? []
  }
}

// A client takes steps of the log from a version on, as those of one other than it, or as its own.
function take(client, version, steps, clientID = "others") {
  const answer = {clientIDs: steps.map(() => clientID), steps, version: version + steps.length}
  if (steps.length) for (const part of client.parts(answer)) client.take(part)
}
