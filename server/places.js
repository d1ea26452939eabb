// Places in a document that ride on its steps: cursors of the engine's clients, which carry them past the log's entries. 64 cursors are a
// client's most, so there are as many clients as are needed.

/** Cursors of a client: two for each pair. */
const MOST = 32

/** Of one client: the pairs of places that it has, in the order of their cursors; a pair that was let go stays as null. */
class Keeper {
  constructor(client) {
    this.client = client
    this.ids = []
  }

  places() {
    const {cursors} = this.client.state()
    return this.ids.flatMap((id, i) => (id === null ? [] : [[id, [cursors[2 * i], cursors[2 * i + 1]]]]))
  }
}

export class Places {
  #open
  #keepers = []
  #version
  #doc

  /**
   * @param {(doc: object, version: number) => Promise<object>} open opens an engine's client
   * @param {object} doc the document of the log's first `version` steps
   * @param {number} version
   */
  constructor(open, doc, version) {
    this.#open = open
    this.#doc = doc
    this.#version = version
  }

  /** The version in whose document the places are. */
  get version() { return this.#version }

  /** Has a client of the engine hold the document from now on. */
  async start() {
    if (this.#keepers.length == 0) await this.#keeper()
  }

  /** Whether nothing rides on the document, so that it stays at its version. */
  get isIdle() { return this.#keepers.length == 0 }

  /**
   * Has a range go along from here: false where it is none of the document. What is put in at its ends does not belong to it.
   * @param {string} id
   */
  async add(id, from, to) {
    const keeper = await this.#keeper()
    const start = keeper.client.cursor(from, 1)
    if (start.none) return false
    const end = keeper.client.cursor(to, -1)
    // The first of the two can't be taken back.
    keeper.ids.push(end.none ? null : id)
    if (end.none) keeper.client.cursor(from, -1)
    return !end.none
  }

  async #keeper() {
    const last = this.#keepers.at(-1)
    if (last && last.ids.length < MOST) return last
    const {doc, version} = last ? last.client.doc() : {doc: this.#doc, version: this.#version}
    const keeper = new Keeper(await this.#open(doc, version))
    this.#doc = null
    this.#keepers.push(keeper)
    return keeper
  }

  drop(id) {
    for (const {ids} of this.#keepers) {
      const at = ids.indexOf(id)
      if (at >= 0) ids[at] = null
    }
  }

  /** Carries all past entries that go on from here: a text of JSON, and the version at their end. Before `start` there is nothing to. */
  carry(text, version) {
    for (const {client} of this.#keepers) client.take(text)
    this.#version = version
  }

  /** Where they are, by their IDs. */
  all() { return new Map(this.#keepers.flatMap(it => it.places())) }

  /** The document that they are in. */
  doc() { return this.#keepers[0]?.client.doc().doc ?? this.#doc }

  close() {
    for (const {client} of this.#keepers) client.close()
    this.#keepers = []
  }
}
