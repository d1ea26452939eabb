// Works that are done one after the other, also where one fails.

export class Order {
  #last = Promise.resolve()

  /** Does a work once those before it are done, and gives what it gives. */
  do(work) {
    const done = this.#last.then(work)
    this.#last = done.catch(() => {})
    return done
  }

  /** Done once all so far are. */
  get settled() { return this.#last }
}
