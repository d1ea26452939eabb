// An editor under test. It makes random transactions, and undoes and redoes; what it tells the authority comes late, and answers come
// late, in another order, twice or never.

"use strict"

const {randomTransaction} = require("./random")

const MOST_TOKENS = 3000, MOST_UNCONFIRMED = 30

/// What became of the acts of some desks, and of the answers.
const newCounts = () => ({transactions: 0, thrown: 0, undos: 0, redos: 0, messages: 0, late: 0, lost: 0, repeated: 0, came: {}})

/// The desk's client, with the messages that are on their way to the authority and the answers that are on their way back. `draws`
/// decide what it does. `log` is what ProseMirror makes of the log: `play(steps)` is told accepted steps, and `docAt(version)` asked.
class Desk {
  constructor(client, {draws, counts, log}) {
    Object.assign(this, {client, draws, counts, log})
    this.out = []
    this.in = []
    this.time = 0
  }

  edit() {
    const {client, counts, draws} = this
    if (client.unconfirmed.length > MOST_UNCONFIRMED) return
    if (draws.chance(8)) {
      counts.undos += client.undo() ? 1 : 0
      if (draws.chance(40)) counts.redos += client.redo() ? 1 : 0
    } else {
      const tr = this.transaction()
      // The time between two edits decides whether they are one event.
      this.time += draws.below(1000)
      if (tr) client.dispatch(tr.setTime(this.time))
      if (tr) counts.transactions++
    }
  }

  // ProseMirror's calls throw on a document that is not valid, which an editor may hold until the authority has refused a step.
  transaction() {
    try {
      return randomTransaction(this.client.state, this.draws, MOST_TOKENS)
    } catch (error) {
      this.counts.thrown++
      return null
    }
  }

  compose() {
    if (this.out.length > 2) return
    this.out.push(this.client.compose())
    this.counts.messages++
  }

  /// Presents a message, which may be overtaken by later ones. Its answer may be lost.
  async post() {
    const {counts, draws} = this
    if (this.out.length == 0) return
    const at = draws.chance(85) ? 0 : draws.below(this.out.length)
    if (at > 0 || this.out.length > 1) counts.late++
    const [message] = this.out.splice(at, 1)
    const answer = await this.client.authority.ask(message.line)
    if (answer.accepted) this.log.play(message.line.steps)
    if (draws.chance(10)) counts.lost++
    else this.in.push({message, answer})
  }

  // An answer that was taken may come once more, at any later time.
  take() {
    const {counts, draws} = this
    if (this.in.length == 0) return
    const at = draws.chance(70) ? 0 : draws.below(this.in.length)
    const {message, answer} = this.in[at]
    if (draws.chance(10) && this.in.length < 20) counts.repeated++
    else this.in.splice(at, 1)
    this.told(this.client.take(message, answer))
  }

  told(what) {
    const {came} = this.counts
    came[what] = (came[what] || 0) + 1
    this.check()
  }

  check() {
    const {client} = this
    if (client.unconfirmed.length == 0 && !client.state.doc.eq(this.log.docAt(client.version)))
      throw new Error(`the editor ${client.clientID} does not hold the document of version ${client.version}`)
  }

  /// Edits, composes messages and takes answers, some times.
  turn() {
    for (let acts = this.draws.below(6); acts > 0; acts--) {
      const draw = this.draws.below(100)
      if (draw < 50) this.edit()
      else if (draw < 70) this.compose()
      else this.take()
    }
  }

  /// Exchanges without losses until nothing is unconfirmed, and the editor has the log as it stands. As `Client.sync`, where the steps
  /// that are accepted are played too.
  async settle() {
    const {client} = this
    let message
    do {
      message = client.compose()
      const answer = await client.authority.ask(message.line)
      if (answer.accepted) this.log.play(message.line.steps)
      client.take(message, answer)
    } while (message.line.op == "submit" || client.unconfirmed.length > 0)
  }
}

module.exports = {Desk, newCounts}
