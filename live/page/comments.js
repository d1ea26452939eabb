// The comments of a document, on texts of it. Each keeps the version and the place at which it was made; where that is at a later version
// the engine tells (`map`).

"use strict"

const MOST = 200

const isText = (value, most) => typeof value == "string" && value.length > 0 && value.length <= most
const isCount = value => Number.isSafeInteger(value) && value >= 0

class Comments {
  constructor(document) {
    this.document = document
    this.list = []
  }

  /// A comment of these fields, or an error.
  add({version, from, to, by, text, quote}) {
    const isWhole = [version, from, to].every(isCount) && from < to && version <= this.document.version
    if (!isWhole || !isText(by, 64) || !isText(text, 1000) || !isText(quote, 200)) throw new Error("that is no comment")
    if (this.list.length == MOST) throw new Error("there are too many comments")
    const made = {version, from, to, by, text, quote}
    this.list.push(made)
    return made
  }

  /// The comments, each with its place at a version; `from` is not before `to` where its text is gone. Later ones are left out.
  at(version) { return Promise.all(this.list.filter(it => it.version <= version).map(it => this.placed(it, version))) }

  async placed({version, from, to, ...said}, at) {
    const answer = await this.document.ask({op: "map", from: version, to: at, positions: [[from, 1], [to, -1]]})
    if (!answer.positions) throw new Error(`no place of a comment: ${JSON.stringify(answer)}`)
    const [[start], [end]] = answer.positions
    return {...said, from: start, to: end}
  }
}

module.exports = {Comments}
