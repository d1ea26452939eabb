// The changes of a log, gathered from its entries: of the editor's own ones each event is a change, and of others what one of them wrote
// or took out at one place.

const isText = ({slice}) => Boolean(slice) && !slice.openStart && !slice.openEnd && slice.content.every(it => it.type == "text")

function kindOf(step) {
  if (step.stepType != "replace") return `${step.stepType} ${step.mark ? step.mark.type : ""}`
  if (!step.slice) return "removed"
  return isText(step) ? "wrote" : "replaced"
}

const isOfText = kind => kind == "wrote" || kind == "removed"

// The range of what a map changed, in the document before and after it; null where it changed none.
function rangesOf(map) {
  let before = null, after = null
  map.forEach((from, to, start, end) => {
    before = before ? [before[0], to] : [from, to]
    after = after ? [after[0], end] : [start, end]
  })
  return {before, after}
}

export class Changes {
  #mapOf
  #last = new Map()
  #events = new Map()
  #count = 0

  /// `mapOf` gives a step's map by its JSON.
  constructor(mapOf) { this.#mapOf = mapOf }

  /// The changes, the first one first: `{clientID, event, at, steps}`, where `at` has the places of the steps in the log.
  list = []

  /// Takes the log's next entries.
  add(entries) { for (const it of entries) this.#addOne(it) }

  /// How many entries were taken.
  get count() { return this.#count }

  #addOne({clientID, step, event}) {
    const {before, after} = rangesOf(this.#mapOf(step)), kind = kindOf(step), at = this.#count++
    const found = event ? this.#events.get(event) : this.#open(clientID, kind, event, before, at)
    this.#moveOn(step)
    const change = found ?? this.#begin(clientID, kind, event)
    change.at.push(at)
    change.steps.push(step)
    if (after) change.range = after
    this.#last.set(clientID, change)
  }

  // The last change of a client, where the entry goes on with it.
  #open(clientID, kind, event, before, at) {
    const last = this.#last.get(clientID)
    if (!last || last.event !== event || last.kind != kind) return null
    if (event === 0 || !isOfText(kind)) return last.at[last.at.length - 1] == at - 1 ? last : null
    const [from, to] = last.range
    return before && before[0] <= to && before[1] >= from ? last : null
  }

  #begin(clientID, kind, event) {
    const change = {clientID, kind, event, at: [], steps: [], range: [-1, -1]}
    this.list.push(change)
    if (event) this.#events.set(event, change)
    return change
  }

  #moveOn(step) {
    const map = this.#mapOf(step)
    for (const change of this.#last.values()) change.range = [map.map(change.range[0], -1), map.map(change.range[1], 1)]
  }
}
