// An authority like the live one (docs/use/LIVE.md), over ProseMirror's `step.apply`, for bench/live.js: it reads the same lines and
// writes the same answers. It checks less: what is no line of the protocol ends it.
// usage: node bench/live-authority.js      as a process; as a module, `new NodeAuthority().answer(line)`

"use strict"

const {Schema, Node} = require("prosemirror-model")
const {Step} = require("prosemirror-transform")

const byName = types => Object.fromEntries((types || []).map(({name, ...rest}) => [name, rest]))

class NodeAuthority {
  constructor() {
    this.schema = null
    this.doc = null
    this.log = []
    this.clientIDs = []
  }

  /// The answer to a line, both as texts; null after the first one.
  answer(text) {
    const line = JSON.parse(text)
    if (!this.schema) return this.openSchema(line)
    return JSON.stringify(this.doc ? this.answerTo(line) : this.openDocument(line))
  }

  openSchema({nodes, marks, topNode}) {
    this.schema = new Schema({nodes: byName(nodes), marks: byName(marks), topNode})
    return null
  }

  openDocument(json) {
    this.doc = json ? Node.fromJSON(this.schema, json) : this.schema.topNodeType.createAndFill()
    this.doc.check()
    return {size: this.doc.content.size, version: 0}
  }

  answerTo(line) {
    if (line.op == "submit") return this.submit(line)
    const {log, clientIDs} = this
    if (line.op == "doc") return {doc: this.doc.toJSON(), version: log.length}
    const steps = log.slice(line.version).map(step => step.toJSON())
    return {clientIDs: clientIDs.slice(line.version), steps, version: log.length}
  }

  submit({version, clientID, steps}) {
    if (version != this.log.length) return {version: this.log.length}
    const made = steps.map(json => Step.fromJSON(this.schema, json))
    let next = this.doc
    for (const [index, step] of made.entries()) {
      const result = step.apply(next)
      if (result.failed) return {refused: {index, reason: result.failed}}
      next = result.doc
    }
    this.doc = next
    this.log.push(...made)
    this.clientIDs.push(...made.map(() => clientID))
    return {accepted: {count: steps.length, from: version}}
  }
}

module.exports = {NodeAuthority}

// ---- as a process

function serve(authority) {
  let parts = []
  process.stdin.setEncoding("utf8").on("data", text => {
    const [first, ...rest] = text.split("\n")
    parts.push(first)
    for (const next of rest) {
      const answer = authority.answer(parts.join(""))
      parts = [next]
      if (answer !== null) process.stdout.write(answer + "\n")
    }
  })
}

if (require.main === module) serve(new NodeAuthority())
