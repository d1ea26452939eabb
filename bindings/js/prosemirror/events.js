// The numbers of the events that the engine can undo and redo, in order: the engine tells how many they are, and the commands ask which.

export class Events {
  done = []
  undone = []
  #quiet = new Set()
  #isOpen = false

  /// A step of an event was made.
  made(event, isQuiet) {
    if (!this.#isOpen || this.done[this.done.length - 1] !== event) this.done.push(event)
    if (isQuiet) this.#quiet.add(event)
    this.#isOpen = true
    this.undone = []
  }

  /// The event that is undone next, or undefined: the last that is not quiet.
  get next() {
    for (let i = this.done.length - 1; i >= 0; i--) if (!this.#quiet.has(this.done[i])) return this.done[i]
    return undefined
  }

  /// An event was undone by so many steps. Of one without a step nothing is left.
  undo(event, count) {
    this.done.splice(this.done.lastIndexOf(event), 1)
    if (count > 0) this.undone.push(event)
    this.#isOpen = false
  }

  /// The last undone event was made again.
  redo(count) {
    const event = this.undone.pop()
    if (count > 0) this.done.push(event)
    this.#isOpen = false
  }
}
