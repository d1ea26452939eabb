// The network of a page without a server: messages and answers take a time that a slider tells. The authority is in the page, and each
// time that its log grows the other panes are sent the entries.

"use strict"

class Network {
  /// `delay()` tells how long a message takes, in milliseconds; `onGrow()` is called where the log has grown.
  constructor(authority, delay, onGrow) {
    this.authority = authority
    this.delay = delay
    this.onGrow = onGrow
    this.panes = []
    /// The log's entries as `{pane, event, step}`: which editor's they are, and of which event there.
    this.entries = []
  }

  /// A pane with a call `receive(answer)`. Gives its number.
  join(pane) {
    const {version} = this.authority
    return this.panes.push({pane, version}) - 1
  }

  passes() { return new Promise(resolve => setTimeout(resolve, this.delay())) }

  /// The answer to a message of a pane; `events` are those of the steps in it.
  async ask(from, message, events) {
    await this.passes()
    const answer = this.authority.ask(message)
    if (answer.accepted) this.grow(from, message.steps, events)
    await this.passes()
    return answer
  }

  grow(from, steps, events) {
    steps.forEach((step, i) => this.entries.push({pane: from, event: events[i], step}))
    this.onGrow()
    this.panes.forEach((to, i) => {
      if (i != from) this.passes().then(() => to.pane.receive(entries))
      const entries = this.authority.ask({op: "since", version: to.version})
      to.version = entries.version
    })
  }
}

module.exports = {Network}
