// A document of the house beside a process that has this one alone. Each line goes to both, and both have to answer the same. The process
// counts from its own first document, and lets nothing go.

"use strict"

const {Node} = require("prosemirror-model")
const {startAuthority} = require("./authority")
const {Played} = require("./played")

// No log is so long, so a submission of this version is one of another than the log's.
const NO_VERSION = 4294967295

const isVersion = value => Number.isInteger(value) && value >= 0

// An answer of a log that has `base` steps before its first document.
const counted = (text, base) =>
  text.replace(/("version":|"from":)(\d+)(\}+)$/, (_, key, version, end) => `${key}${Number(version) + base}${end}`)

let opened = 0

class Beside {
  /// `basic` is the schema's name in the house.
  constructor(house, name, schema, basic) {
    Object.assign(this, {house, name, schema, basic})
    this.alone = null
    this.played = null
    this.answers = 0
  }

  get isOpen() { return this.alone !== null }

  /// The version to which the log has come. `from` is the first one that the house has kept.
  get version() { return this.played.version }

  docAt(version) { return this.played.docAt(version) }

  play(steps) { this.played.play(steps) }

  same(what, found, wanted) {
    this.answers++
    if (found !== wanted) throw new Error(`of ${this.name}, ${what}: the house says\n  ${found}\nand not\n  ${wanted}`)
  }

  /// Opens the document as it was closed, or where `doc` and `version` are told another one; a `doc` of null is the top type filled.
  async open(doc, version = this.version) {
    const first = doc === undefined ? this.played.doc : doc
    // (the house tells its documents in this order)
    this.opened = ++opened
    const [{size, version: begun}, alone] = await Promise.all([
      this.house.open(this.name, this.basic, first, version), startAuthority(this.schema, first),
    ])
    if (doc !== undefined) this.played = new Played(this.schema, doc || this.schema.topNodeType.createAndFill(), version)
    this.same("open", `${size} ${begun}`, `${this.played.doc.content.size} ${version}`)
    Object.assign(this, {alone, base: version, from: version})
  }

  async close() {
    const {alone} = this
    this.alone = null
    const [text, status] = await Promise.all([this.house.askLine(JSON.stringify({op: "close", in: this.name})), alone.close()])
    this.same("close", text, JSON.stringify({closed: this.name}))
    this.same("the end of the other process", status, 0)
  }

  // What the house answers that the other process can't, or null.
  own({op, version}) {
    if (!this.isOpen) return {none: "document"}
    if (op == "submit" || !isVersion(version)) return null
    if (version < this.from) return {from: this.from}
    if (op != "since" && version > this.version) return {version: this.version}
    return op == "forget" ? {from: version} : null
  }

  async wanted(line) {
    const own = this.own(line), {base} = this
    if (own) return JSON.stringify(own)
    const version = isVersion(line.version) && line.version < base ? NO_VERSION : line.version - base
    return counted(await this.alone.askLine(JSON.stringify(isVersion(line.version) ? {...line, version} : line)), base)
  }

  /// The answer to a line, which both give.
  async ask(line) {
    const [text, wanted] = await Promise.all([this.house.askLine(JSON.stringify({...line, in: this.name})), this.wanted(line)])
    this.same(JSON.stringify(line), text, wanted)
    return JSON.parse(text)
  }

  /// The house has made steps at the log's end. The process has to accept them.
  async took(clientID, version, steps) {
    if (steps.length == 0) return
    const text = await this.alone.askLine(JSON.stringify({op: "submit", version: version - this.base, clientID, steps}))
    this.same("the steps of the house", counted(text, this.base), JSON.stringify({accepted: {count: steps.length, from: version}}))
  }

  /// Lets steps go.
  async forget(version) {
    const {from, version: most} = await this.ask({op: "forget", version})
    if (most === undefined) this.from = from
  }

  /// Asks the document at a version, which the process can't tell, and ProseMirror can.
  async askDoc(version) {
    const line = {op: "doc", version}
    if (this.own(line)) return this.ask(line)
    const told = await this.house.ask({...line, in: this.name})
    const isSame = told.version === version && Node.fromJSON(this.schema, told.doc).eq(this.docAt(version))
    this.same(JSON.stringify(line), isSame ? "" : JSON.stringify(told), "")
    return told
  }
}

module.exports = {Beside}
