// A log as ProseMirror plays it: the document at each version.

"use strict"

const {Mapping, Step, StepMap} = require("prosemirror-transform")

/// What a document's positions count: each start of a node with its attributes and marks, each unit of a text with its marks, each end.
function tokensOf(node) {
  const tokens = []
  node.forEach(child => {
    const {type, attrs, marks, text, isText, isLeaf} = child, said = isText ? marks : [type.name, attrs, marks]
    if (isText) for (let i = 0; i < text.length; i++) tokens.push(`${text[i]} ${JSON.stringify(said)}`)
    else if (isLeaf) tokens.push(JSON.stringify(said))
    else tokens.push(JSON.stringify(said), ...tokensOf(child), "end")
  })
  return tokens
}

class Played {
  /// `doc` is the document at the version `base`.
  constructor(schema, doc, base = 0) {
    this.schema = schema
    this.base = base
    this.docs = [doc]
    this.steps = []
  }

  get version() { return this.base + this.steps.length }

  get doc() { return this.docs[this.steps.length] }

  docAt(version) { return this.docs[version - this.base] }

  /// Where positions go between two versions.
  mapping(from, to) { return new Mapping(this.mapsOf(from, to)) }

  mapsOf(from, to) { return this.steps.slice(from - this.base, to - this.base).map(step => step.getMap()) }

  /// The tokens of the document without the steps between two versions: those that came since, each carried, spliced in order into the
  /// document before. The documents between need not be valid, so ProseMirror's steps need not apply to them.
  tokensWithout(from, to) {
    const mapping = new Mapping(this.mapsOf(from, this.version).reverse().map(it => it.invert()))
    let tokens = tokensOf(this.docAt(from))
    this.mapsOf(to, this.version).forEach((map, i, since) => {
      const back = since.length - 1 - i, over = mapping.slice(back + 1), made = tokensOf(this.docAt(to + i + 1)), ranges = []
      map.forEach((start, end, newStart, newEnd) =>
        ranges.push({at: over.map(start, 1), size: end - start, put: made.slice(newStart, newEnd)}))
      mapping.appendMap(new StepMap(ranges.flatMap(({at, size, put}) => [at, size, put.length])), back)
      for (const {at, size, put} of ranges.reverse()) tokens = [...tokens.slice(0, at), ...put, ...tokens.slice(at + size)]
    })
    return tokens
  }

  /// Goes on by steps, which are JSON values. An error where one does not apply.
  play(steps) {
    for (const json of steps) {
      const step = Step.fromJSON(this.schema, json), {doc, failed} = step.apply(this.doc)
      if (failed) throw new Error(`ProseMirror does not apply step ${this.version} of the log: ${failed}`)
      this.steps.push(step)
      this.docs.push(doc)
    }
  }
}

module.exports = {Played, tokensOf}
