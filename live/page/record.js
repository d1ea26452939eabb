// The log of the page's document, as the server tells it.

"use strict"

const {Step} = require("prosemirror-transform")

class Record {
  /// The entries: `{clientID, step, map}`, the step as JSON.
  entries = []

  constructor(schema) { this.schema = schema }

  get version() { return this.entries.length }

  /// Takes entries, of which some may be known.
  add({clientIDs, steps, version}) {
    const known = this.version - (version - steps.length)
    steps.slice(known).forEach((step, i) =>
      this.entries.push({clientID: clientIDs[known + i], step, map: Step.fromJSON(this.schema, step).getMap()}))
  }
}

module.exports = {Record}
