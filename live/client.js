// A client of the live authority: an editor (editor.js) whose lines go to the process, or to an engine in this one (authority.js).
//
//   const {startAuthority, join} = require("./live/client")
//   const authority = await startAuthority(schema, doc)      // or startAuthority(schema, doc, "wasm")
//   const ann = await join(authority, {schema, clientID: "ann"})
//   ann.dispatch(ann.state.tr.insertText("Hello ", 1))
//   await ann.sync()
//   await authority.close()

"use strict"

const {Node} = require("prosemirror-model")
const {startAuthority} = require("./authority")
const {Editor} = require("./editor")
const {undo, redo} = require("./undo")

class Client extends Editor {
  constructor(authority, options) {
    super(options)
    this.authority = authority
  }

  /// Sends what is to be sent, or asks what is new, and takes the answer. Gives what came of it, as `Editor.take` does.
  async exchange() {
    const message = this.compose()
    return this.take(message, await this.authority.ask(message.line))
  }

  /// Exchanges until nothing is unconfirmed, and the editor has the log as it stands.
  async sync() {
    while (this.unconfirmed.length > 0) {
      if (await this.exchange() == "memory") throw new Error("the authority has no memory for a submission")
    }
    const message = this.ask()
    this.take(message, await this.authority.ask(message.line))
  }

  undo() { return undo(this.state, tr => this.dispatch(tr)) }

  redo() { return redo(this.state, tr => this.dispatch(tr)) }
}

/// A client that begins with the authority's document. `clientID` is a text or a whole number that no other client has.
async function join(authority, {schema, ...options}) {
  const {doc, version} = await authority.ask({op: "doc"})
  return new Client(authority, {...options, version, doc: Node.fromJSON(schema, doc)})
}

module.exports = {Client, join, startAuthority}
