// Whose steps a document takes next. Steps fit the log's end alone: of those who send at once one is accepted, and the others have to take
// its steps and come again. Came they all at once they would be told so again and again, and who is far away would always be late. So
// they have their turns in the order in which they came, and who has to come again is waited for.

/** For how many milliseconds: a few ways to the other end of the world and back. */
const PATIENCE = 1_000

/** So often, one after another, it is waited for who does not come. */
const MOST_MISSED = 3

export class Turns {
  #holder = null
  #isAway = false
  #timer = null
  #line = []
  #missed = new WeakMap()

  /** Done once it is this one's turn. */
  async take(who) {
    if (this.#holder !== null && !(this.#holder === who && this.#isAway))
      await new Promise(resolve => this.#line.push({who, resolve}))
    this.#hold(who)
  }

  /**
   * Its turn ends; but where the engine's answer says that it has to come again, it lasts until then.
   * @param {object} who
   * @param {{version?: number, accepted?: {count: number}}} answer empty where it does not come again
   */
  end(who, {version, accepted}) {
    const missed = this.#missed.get(who) ?? 0
    if (accepted?.count > 0) this.#missed.delete(who)
    if (version === undefined || missed == MOST_MISSED) return this.#next()
    this.#isAway = true
    this.#timer = setTimeout(() => {
      this.#missed.set(who, missed + 1)
      this.#next()
    }, PATIENCE)
  }

  /** It does not come again. */
  leave(who) {
    if (this.#holder === who && this.#isAway) this.#next()
  }

  #next() {
    const next = this.#line.shift()
    this.#hold(next?.who ?? null)
    next?.resolve()
  }

  #hold(who) {
    clearTimeout(this.#timer)
    this.#isAway = false
    this.#holder = who
  }
}
