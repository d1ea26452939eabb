// What the view's document has had since it was last the engine's: a chain of steps, the newest of which a state holds. States share
// their chains, so the steps between two states of one view are found by going back from the later one.

export class Entry {
  /// `step` was applied to `doc`, as a step of an event; the root of a chain has none of these.
  constructor(before = null, step = null, doc = null, event = 0, isQuiet = false) {
    Object.assign(this, {before, step, doc, event, isQuiet})
  }

  /// The entries past `from`, oldest first, or null where it is not in the chain.
  since(from) {
    const entries = []
    for (let it = this; it !== from; it = it.before) {
      if (!it.before) return null
      entries.push(it)
    }
    return entries.reverse()
  }

  /// Lets go of what came before.
  cut() {
    this.before = null
    this.step = null
    this.doc = null
  }
}
