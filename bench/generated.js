// Times the word `gen`, beside a plain loop that does the same with ProseMirror. The turns are drawn by the same numbers
// (docs/use/FORMATS.md). An edit makes its steps by Transform; a pull rebases the pending steps as rebaseSteps of prosemirror-collab
// does; a push that is answered in vain pulls; what a lost answer told comes with the next pull. An undo maps the inverses of the
// client's last event over all that came since, where a step that was rebased is the mirror of its inverse, as in
// prosemirror-history. Where an edit fits, and what a client drops, the two may differ in single steps: the row tells the lengths
// of both logs. Ours is a whole run of the program, with the making and the reading of the session; ProseMirror's loop makes the
// turns and no file.
// usage: node bench/generated.js [CLIENTS LINES NUMBER]

"use strict"

const {Schema, Node} = require("prosemirror-model")
const {Transform, Mapping, canSplit} = require("prosemirror-transform")
const {PROGRAM, ensure, fileOf, inTurn, row, run, timed, title, written} = require("./measure")

const [clients, rounds, number] = ["4", "2500", "1"].map((n, i) => process.argv[i + 2] || n)

// ---- the session

class Draws {
  constructor(number) { this.number = BigInt(number) }

  below(limit) {
    this.number = BigInt.asUintN(64, this.number * 6364136223846793005n + 1442695040888963407n)
    return Number((this.number >> 33n) % BigInt(limit))
  }
}

function turn(draws) {
  const kind = draws.below(16)
  if (kind <= 5) {
    const at = 1 + draws.below(30)
    return {op: "text", from: at, letter: String.fromCharCode(97 + draws.below(26))}
  }
  if (kind <= 7) {
    const from = 1 + draws.below(30)
    return {op: "delete", from, to: from + 1 + draws.below(3)}
  }
  if (kind == 8) return {op: "split", from: 1 + draws.below(30)}
  if (kind == 9) {
    const from = 1 + draws.below(30), to = from + 1 + draws.below(5)
    return {op: "addmark", from, to, mark: draws.below(2) ? "strong" : "em"}
  }
  if (kind == 10) return {op: "undo"}
  if (kind == 11) return {op: "redo"}
  if (kind <= 13) return {op: "push"}
  if (kind == 14) return {op: "pull"}
  return {op: "push", lost: draws.below(2) == 0}
}

function* turns() {
  const draws = new Draws(number)
  for (let i = 0; i < clients * rounds; i++) yield {client: i % clients, ...turn(draws)}
}

// ---- ProseMirror

const schema = new Schema({
  nodes: {
    doc: {content: "block+"},
    paragraph: {content: "inline*", group: "block"},
    blockquote: {content: "block+", group: "block"},
    heading: {content: "inline*", group: "block", attrs: {level: {default: 1}}},
    bullet_list: {content: "list_item+", group: "block"},
    list_item: {content: "paragraph block*"},
    image: {group: "inline", inline: true, attrs: {src: {}}},
    text: {group: "inline"},
  },
  marks: {link: {attrs: {href: {}}, inclusive: false}, em: {}, strong: {}, code: {excludes: "_"}},
})

// A client's timeline: the maps of the log's steps that it took and of its pending ones, and the events that it can undo and
// redo, each a list of inverses with the place of each step in the timeline.
class Client {
  constructor(doc) {
    this.doc = doc
    this.version = 0
    this.pending = []
    this.timeline = new Mapping
    this.undone = []
    this.done = []
  }

  // Steps that are made on the document become pending ones, as one event.
  take(transform, events, mirrors) {
    const event = []
    for (let i = 0; i < transform.steps.length; i++) {
      const step = transform.steps[i], inverted = step.invert(transform.docs[i])
      this.timeline.appendMap(step.getMap(), mirrors && mirrors[i])
      event.push({inverted, at: this.timeline.maps.length - 1})
      this.pending.push({step, inverted})
    }
    this.doc = transform.doc
    if (event.length) events.push(event)
  }

  edit(make) {
    const transform = new Transform(this.doc)
    try {
      make(transform)
    } catch (error) {
      if (!(error instanceof RangeError)) throw error
      return
    }
    if (!transform.steps.length) return
    this.undone = []
    this.take(transform, this.done)
  }

  // The last event's inverses, each mapped over all that came since.
  takeBack(from, to) {
    const event = from.pop()
    if (!event) return
    const transform = new Transform(this.doc), mirrors = []
    for (let i = event.length - 1; i >= 0; i--) {
      const over = this.timeline.slice(event[i].at + 1)
      for (const map of transform.mapping.maps) over.appendMap(map)
      const step = event[i].inverted.map(over)
      if (step && !transform.maybeStep(step).failed) mirrors.push(event[i].at)
    }
    this.take(transform, to, mirrors)
  }

  // The log's steps past the version, some of which are the client's own.
  pull(authority) {
    const news = authority.log.slice(this.version)
    let own = 0
    while (own < news.length && this.pending.length > own && news[own] === this.pending[own].step) own++
    this.pending = this.pending.slice(own)
    const over = news.slice(own)
    this.version += news.length
    if (!over.length) return
    const transform = new Transform(this.doc), pending = this.pending, kept = [], moved = []
    for (let i = pending.length - 1; i >= 0; i--) transform.step(pending[i].inverted)
    for (const step of over) transform.step(step)
    for (let i = 0, from = pending.length; i < pending.length; i++) {
      const step = pending[i].step.map(transform.mapping.slice(from))
      from--
      if (step && !transform.maybeStep(step).failed) {
        transform.mapping.setMirror(from, transform.steps.length - 1)
        kept.push({step, inverted: step.invert(transform.docs[transform.docs.length - 1])})
        moved.push(transform.steps.length - 1)
      }
    }
    const first = this.timeline.maps.length, old = first - pending.length
    transform.mapping.maps.forEach((map, i) => {
      this.timeline.appendMap(map, i < pending.length ? old + pending.length - 1 - i : undefined)
    })
    for (let i = 0; i < moved.length; i++) {
      const mirror = transform.mapping.getMirror(moved[i])
      if (mirror != null) this.timeline.setMirror(first + mirror, first + moved[i])
    }
    this.pending = kept
    this.doc = transform.doc
  }

  push(authority, lost) {
    if (this.version != authority.log.length) return lost || this.pull(authority)
    for (const {step} of this.pending) {
      const result = step.apply(authority.doc)
      if (result.failed) throw new Error(result.failed)
      authority.doc = result.doc
    }
    for (const {step} of this.pending) authority.log.push(step)
    if (!lost) this.pull(authority)
  }
}

function played() {
  const doc = Node.fromJSON(schema, {type: "doc", content: [{type: "paragraph", content: [{type: "text", text: "0123456789"}]}]})
  const authority = {doc, log: []}
  const all = Array.from({length: Number(clients)}, () => new Client(doc))
  for (const {client, op, from, to, letter, mark, lost} of turns()) {
    const me = all[client]
    if (op == "text") me.edit(t => t.replaceWith(from, from, schema.text(letter)))
    else if (op == "delete") me.edit(t => t.delete(from, to))
    else if (op == "split") me.edit(t => { if (canSplit(t.doc, from)) t.split(from) })
    else if (op == "addmark") me.edit(t => { if (to <= t.doc.content.size) t.addMark(from, to, schema.mark(mark)) })
    else if (op == "undo") me.takeBack(me.done, me.undone)
    else if (op == "redo") me.takeBack(me.undone, me.done)
    else if (op == "pull") me.pull(authority)
    else me.push(authority, lost)
  }
  for (const me of all) {
    me.pull(authority)
    me.push(authority, false)
  }
  return authority.log.length
}

// ---- both

const nothing = fileOf([]), logs = {}
const ours = () => {
  const ran = run([PROGRAM, "gen", clients, rounds, number], nothing), text = written(ran)
  ensure(text.startsWith(`gen ${clients} ${rounds} ${number}\n`), "the session was not played")
  logs.ours = /\nlog (\d+)\n/.exec(text)[1]
  return ran.ms
}
const theirs = () => {
  const {ms, answer} = timed(played)
  logs.theirs = answer
  return ms
}
const figures = inTurn([ours, theirs])
title("the word gen, milliseconds", "generated.js")
row(`gen ${clients} ${rounds} ${number}`, ...figures, {note: `logs of ${logs.ours} and ${logs.theirs} steps`})
