// The documents of the page's server: those of a house, or one document of an engine in this process. Pages that listen are told each
// one's log as it grows.

"use strict"

const {command, startAuthority} = require("../authority")
const {Comments} = require("./comments")
const {KeptHouse} = require("./kept")
const {schema, first} = require("./schema")

const BASIC = "basic", FIRST = "welcome"

// A page that listens, and the version up to which it was told the log.
class Listener {
  constructor(document, response, version) {
    this.document = document
    this.response = response
    this.version = version
    this.isTelling = false
  }

  // The log may have grown while the answer was on its way.
  async tell() {
    if (this.isTelling) return
    this.isTelling = true
    while (this.version < this.document.version) {
      const entries = await this.document.ask({op: "since", version: this.version})
      this.version = entries.version
      this.response.write(`id: ${entries.version}\ndata: ${JSON.stringify(entries)}\n\n`)
    }
    this.isTelling = false
  }
}

class Document {
  constructor(house, name, version) {
    this.house = house
    this.name = name
    this.version = version
    this.listeners = new Set()
    this.comments = new Comments(this)
  }

  /// The answer to a message.
  async ask(message) {
    const answer = await this.house.ask({...message, in: this.name})
    if (answer.accepted) this.grow(answer.accepted.from + answer.accepted.count)
    return answer
  }

  grow(version) {
    this.version = Math.max(this.version, version)
    for (const listener of this.listeners) listener.tell().catch(() => this.listeners.delete(listener))
  }

  /// Tells the log from a version on, and that there is a comment, until the page is gone.
  listen(request, response, version) {
    const listener = new Listener(this, response, version)
    this.listeners.add(listener)
    request.on("close", () => this.listeners.delete(listener))
    this.grow(this.version)
  }

  comment(value) {
    const made = this.comments.add(value)
    this.house.note({in: this.name, comment: made})
    for (const {response} of this.listeners) response.write("event: comment\ndata: {}\n\n")
  }
}

// An engine in this process, which has one document, as a house of it.
class Alone {
  constructor(authority) {
    this.authority = authority
    this.ended = authority.ended
  }

  ask({in: _name, ...message}) { return this.authority.ask(message) }

  async knows() { return false }

  note() {}

  close() { return this.authority.close() }
}

class Documents {
  constructor(house, words) {
    this.house = house
    this.words = words
    this.byName = new Map()
  }

  get list() { return [...this.byName.values()].map(({name, version}) => ({name, version})) }

  find(name) { return this.byName.get(name) }

  /// A new document. Gives the house's answer.
  async add(name) {
    const answer = await this.house.ask({op: "open", in: name, schema: BASIC, doc: first.toJSON(), version: 0})
    if (answer.version !== undefined) this.byName.set(name, new Document(this.house, name, answer.version))
    return answer
  }

  close() { return this.house.close() }
}

async function startAlone(kind) {
  const documents = new Documents(new Alone(await startAuthority(schema, first, kind)), {})
  documents.byName.set(FIRST, new Document(documents.house, FIRST, 0))
  return documents
}

/// Starts a house, with the documents of the file, and with a first one; or where the variable PM_LIVE names an engine in this process,
/// that one's document.
async function startDocuments(file) {
  const [program] = command()
  if (program == "wasm" || program == "addon") return startAlone(program)
  const house = new KeptHouse(file)
  await house.begin()
  await house.name(BASIC, schema)
  const documents = new Documents(house, {map: await house.knows("map"), revert: await house.knows("revert"), open: true})
  for (const {in: name, version} of (await house.ask({op: "documents"})).documents)
    documents.byName.set(name, new Document(house, name, version))
  for (const {in: name, comment} of house.notes.list) documents.find(name)?.comments.list.push(comment)
  if (!documents.find(FIRST)) await documents.add(FIRST)
  return documents
}

module.exports = {startDocuments}
