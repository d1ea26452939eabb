// Who wrote what: ranges of a document, each with the client that put it in, carried over the steps of a log.

"use strict"

const {Plugin} = require("prosemirror-state")
const {Decoration, DecorationSet} = require("prosemirror-view")

// Each is light enough for dark letters on it.
const COLORS = ["#bcd6ff", "#ffd2b0", "#c4ecc9", "#f0c9f2", "#f3e3a1", "#b5e8ec", "#ffc9d3", "#d8d0ff"]

/// The name in a client's ID, which ends with a random number.
const nameOf = clientID => String(clientID).split(".")[0]

// What is left of ranges beside those that a map takes out.
const cut = (spans, {from, to}) => spans.flatMap(it => [{...it, to: Math.min(it.to, from)}, {...it, from: Math.max(it.from, to)}])
  .filter(it => it.from < it.to)

function joined(spans) {
  const list = []
  for (const it of spans) {
    const last = list[list.length - 1]
    if (last && last.to == it.from && last.by == it.by) last.to = it.to
    else list.push({...it})
  }
  return list
}

/// The ranges after a step of this map, which a client made.
function carried(spans, map, by) {
  const ranges = [], made = []
  map.forEach((from, to, start, end) => {
    ranges.push({from, to})
    if (start < end) made.push({from: start, to: end, by})
  })
  if (ranges.length == 0) return spans
  const kept = ranges.reduce(cut, spans).map(it => ({...it, from: map.map(it.from, 1), to: map.map(it.to, -1)}))
  return joined([...kept, ...made].sort((a, b) => a.from - b.from))
}

/// The ranges of one editor's document.
class Authors {
  /// `record` has the log's entries.
  constructor(record) {
    this.record = record
    this.version = 0
    this.spans = []
  }

  // The ranges of a version, none where the log is not known so far.
  at(version) {
    for (; this.version < Math.min(version, this.record.version); this.version++) {
      const {map, clientID} = this.record.entries[this.version]
      this.spans = carried(this.spans, map, nameOf(clientID))
    }
    return this.version == version ? this.spans : null
  }

  /// The ranges of an editor's document, with its unconfirmed steps; null where they are not known so far.
  of({version, unconfirmed, clientID}) {
    const spans = this.at(version)
    return spans && unconfirmed.reduce((all, {step}) => carried(all, step.getMap(), nameOf(clientID)), spans)
  }
}

/// The authors of a log in the order in which they came, each with a colour.
function colorsOf({entries}) {
  const names = [...new Set(entries.map(it => nameOf(it.clientID)))]
  return new Map(names.map((name, i) => [name, COLORS[i % COLORS.length]]))
}

/// A plugin that shows the ranges that `find()` gives, or nothing where it gives null.
function authorsPlugin(find) {
  const shown = (doc, {spans, colors}) => DecorationSet.create(doc, spans.map(({from, to, by}) =>
    Decoration.inline(from, to, {class: "author", "data-by": by, title: by, style: `background: ${colors.get(by) || "none"}`})))
  return new Plugin({props: {decorations: state => (found => found && shown(state.doc, found))(find())}})
}

module.exports = {Authors, authorsPlugin, carried, colorsOf, nameOf}
