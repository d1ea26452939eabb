// The log's entries since the client began, as the server told them or as it accepted the client's own, and how they move places.

/// An entry is `{clientID, step, event}`: the step as JSON, and of an own one its event in the editor, 0 of a step of undo.
export class Log {
  #maps = []
  #mapOf

  /// The log from a version on. `mapOf` gives a step's map by its JSON.
  constructor(version, mapOf) {
    this.first = version
    this.entries = []
    this.#mapOf = mapOf
  }

  get version() { return this.first + this.entries.length }

  /// Takes entries from a version on. Those that are known are passed over, and so are those that don't follow on: they come again.
  grow(version, entries) {
    if (version > this.version) return
    const fresh = entries.slice(this.version - version)
    this.entries.push(...fresh)
    this.#maps.push(...fresh.map(({step}) => this.#mapOf(step)))
  }

  /// Takes the entries before the first.
  precede(entries) {
    this.entries = [...entries, ...this.entries]
    this.#maps = [...entries.map(({step}) => this.#mapOf(step)), ...this.#maps]
    this.first -= entries.length
  }

  /// Where a place in the document of a version is in that of the last one; null where the steps between are not known.
  carry(pos, version, side) {
    if (version < this.first || version > this.version) return null
    return this.#maps.slice(version - this.first).reduce((at, map) => map.map(at, side), pos)
  }
}

/// Entries of an answer to `since`.
export const entriesOf = ({clientIDs, steps}) => steps.map((step, i) => ({clientID: clientIDs[i], step, event: undefined}))
