// A view of ProseMirror's without a page: a state and the plugins' views, which is what the plugin needs of one.

export class Desk {
  #views

  constructor(state) {
    this.state = state
    this.#begin()
  }

  #begin() { this.#views = this.state.plugins.filter(it => it.spec.view).map(it => it.spec.view(this)) }

  get dispatch() { return tr => this.updateState(this.state.apply(tr)) }

  updateState(state) {
    const before = this.state
    this.state = state
    if (state.plugins === before.plugins) for (const view of this.#views) view.update?.(this, before)
    else {
      this.destroy()
      this.#begin()
    }
  }

  destroy() { for (const view of this.#views) view.destroy?.() }
}

/// An authority in a few lines: a log that takes what comes at its length.
export class Log {
  entries = []

  ask(message) {
    const {op, version, clientID, steps} = JSON.parse(JSON.stringify(message))
    if (op == "submit" && version != this.entries.length) return {version: this.entries.length}
    if (op == "submit") {
      this.entries.push(...steps.map(step => ({step, clientID})))
      return {accepted: {count: steps.length, from: version}}
    }
    const since = this.entries.slice(version)
    return {clientIDs: since.map(it => it.clientID), steps: since.map(it => it.step), version: this.entries.length}
  }
}
