// A clock that goes on where a test says so, in place of the machine's.

const NAMES = ["setTimeout", "clearTimeout", "setInterval", "clearInterval"]

export class Clock {
  #kept = {now: Date.now, timers: Object.fromEntries(NAMES.map(name => [name, globalThis[name]]))}
  #due = new Map()
  #now = Date.now()

  constructor() {
    Date.now = () => this.#now
    globalThis.setTimeout = (work, after) => this.#add({work, after, isOnce: true})
    globalThis.setInterval = (work, after) => this.#add({work, after, isOnce: false})
    globalThis.clearTimeout = globalThis.clearInterval = timer => this.#due.delete(timer)
  }

  #add(timer) {
    this.#due.set(timer, this.#now + timer.after)
    return timer
  }

  /** So many milliseconds pass. What was due in them comes at their end, and once, as in a page that is not seen. */
  pass(milliseconds) {
    this.#now += milliseconds
    for (const [timer, at] of [...this.#due]) {
      if (at > this.#now || !this.#due.has(timer)) continue
      if (timer.isOnce) this.#due.delete(timer)
      else this.#due.set(timer, this.#now + timer.after)
      timer.work()
    }
  }

  end() {
    Date.now = this.#kept.now
    Object.assign(globalThis, this.#kept.timers)
  }
}
