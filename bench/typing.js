// Times `replay` of a session in which four clients type into a document of 2,000 paragraphs, 20 letters at a turn, and then pull
// and push. Beside it stand two plain loops over the same turns. With ProseMirror each letter is a step of its own, a pull
// rebases the pending ones, and a push hands them to an authority that keeps the document. With Yjs each letter is an update of
// the client's document, a pull applies those of others, and a push hands the client's to a server that applies them too. Ours is
// a whole run of the program, with its reading and its report; the loops have neither.
// usage: node bench/typing.js [LINES..]

"use strict"

const {Node, Slice, Fragment} = require("prosemirror-model")
const {ReplaceStep, Transform} = require("prosemirror-transform")
const Y = require("yjs")
const {schemaOf, rebased} = require("./collab")
const {ensure, fileOf, inTurn, middle, play, row, timed, title, written} = require("./measure")

const names = ["ann", "bob", "cy", "dan"]
const count = 2000, run = 20, text = "abcdefghij".repeat(5).slice(0, 44)
const types = {nodes: [{name: "doc", content: "paragraph+"}, {name: "paragraph", content: "text*"}, {name: "text"}]}
const first = {type: "doc", content: Array(count).fill({type: "paragraph", content: [{type: "text", text}]})}

// The acts: a client types letters one after another at an offset of a paragraph, pulls and pushes. A session's lines tell
// positions, so the acts are made by playing them once with ProseMirror.
function actsOf(lines) {
  const side = new ProseMirror, acts = []
  const add = act => {
    acts.push(act)
    side[act.op](side.clients[act.client], act)
  }
  for (let turn = 0; acts.length < lines; turn++) {
    const client = turn % names.length, paragraph = (turn * 7919) % count, from = turn % text.length
    const at = startOf(side.clients[client].doc, paragraph) + 1 + from
    for (let i = 0; i < run; i++) add({op: "text", client, paragraph, offset: from + i, at: at + i})
    for (const op of ["pull", "push"]) add({op, client})
  }
  return acts.slice(0, lines)
}

// Plays the acts on one side. At the end each client pushes what is left, as a session's clients settle.
function playOn(side, acts) {
  for (const act of acts) side[act.op](side.clients[act.client], act)
  for (const client of side.clients) {
    side.pull(client)
    side.push(client)
  }
}

// ---- ProseMirror

class ProseMirror {
  constructor() {
    const schema = schemaOf(types)
    this.doc = Node.fromJSON(schema, first)
    this.log = []
    this.clients = names.map(() => ({doc: this.doc, version: 0, pending: []}))
    this.letter = new Slice(Fragment.from(schema.text("x")), 0, 0)
  }

  text(client, {at}) {
    const step = new ReplaceStep(at, at, this.letter)
    client.pending.push({step, inverted: step.invert(client.doc)})
    client.doc = step.apply(client.doc).doc
  }

  pull(client) {
    const over = this.log.slice(client.version)
    if (!over.length) return
    const transform = new Transform(client.doc)
    client.pending = rebased(client.pending, over, transform)
    client.doc = transform.doc
    client.version += over.length
  }

  push(client) {
    for (const {step} of client.pending) {
      this.doc = step.apply(this.doc).doc
      this.log.push(step)
    }
    client.version = this.log.length
    client.pending = []
  }

  texts() { return this.doc.content.content.map(paragraph => paragraph.textContent) }
}

// The position at which a child of the document begins.
function startOf(doc, index) {
  let pos = 0
  for (let i = 0; i < index; i++) pos += doc.child(i).nodeSize
  return pos
}

// ---- Yjs

class Yjs {
  constructor() {
    const start = Y.encodeStateAsUpdate(firstOfYjs())
    this.server = new YDocument(start)
    this.log = []
    this.clients = names.map(() => new YDocument(start))
    for (const client of this.clients)
      client.doc.on("update", (update, origin) => { if (origin != "pull") client.pending.push(update) })
  }

  text(client, {paragraph, offset}) { client.paragraphs[paragraph].insert(offset, "x") }

  pull(client) {
    for (const {from, update} of this.log.slice(client.version))
      if (from != client) Y.applyUpdate(client.doc, update, "pull")
    client.version = this.log.length
  }

  push(client) {
    for (const update of client.pending) {
      Y.applyUpdate(this.server.doc, update)
      this.log.push({from: client, update})
    }
    client.version = this.log.length
    client.pending = []
  }

  texts() { return this.server.paragraphs.map(paragraph => paragraph.toString()) }
}

// A document with its paragraphs' texts at hand, as an editor's binding has them.
class YDocument {
  constructor(start) {
    this.doc = new Y.Doc()
    Y.applyUpdate(this.doc, start)
    this.paragraphs = this.doc.getXmlFragment("doc").toArray().map(paragraph => paragraph.get(0))
    this.version = 0
    this.pending = []
  }
}

function firstOfYjs() {
  const doc = new Y.Doc()
  doc.getXmlFragment("doc").insert(0, first.content.map(() => {
    const paragraph = new Y.XmlElement("paragraph")
    paragraph.insert(0, [new Y.XmlText(text)])
    return paragraph
  }))
  return doc
}

// ---- ours

const lineOf = ({op, client, at}) => (op == "text" ? {c: names[client], op, from: at, to: at, text: "x"} : {c: names[client], op})

// The texts of the paragraphs at the end.
const textsOf = report => JSON.parse(/\nfinal (.*)\n/.exec(report)[1]).content.map(({content: [{text}]}) => text)

function measure(lines) {
  const acts = actsOf(lines), session = fileOf([types, first, names, ...acts.map(lineOf)])
  const ends = [], megabytes = []
  const ours = () => {
    const ran = play("replay", session)
    megabytes.push(ran.megabytes)
    ends[0] = textsOf(written(ran))
    return 1000 * ran.ms / lines
  }
  const other = Side => () => {
    const side = new Side, {ms} = timed(() => playOn(side, acts))
    ends.push(side.texts())
    return 1000 * ms / lines
  }
  const [mine, pm, yjs] = inTurn([ours, other(ProseMirror), other(Yjs)])
  ensure(ends.every(texts => texts.join("\n") == ends[0].join("\n")), "the sides end with different texts")
  row(`${lines} lines`, mine, pm, {note: `${middle(megabytes).toFixed(1)} MB`})
  row("  beside Yjs", mine, yjs)
}

const sizes = process.argv.slice(2).map(Number)
title("typing of 4 clients, microseconds a line", "typing.js")
for (const lines of sizes.length ? sizes : [1000, 10000, 100000]) measure(lines)
