// What talk.js times, in node and in a page: the client's talk of the engine in WebAssembly, and ProseMirror beside it.

"use strict"

const {EditorState} = require("prosemirror-state")
const {Fragment, Node, Slice} = require("prosemirror-model")
const {ReplaceStep, Step, Transform} = require("prosemirror-transform")
const {rebased, schemaOf} = require("./collab")

const types = {nodes: [{name: "doc", content: "paragraph+"}, {name: "paragraph", content: "text*"}, {name: "text"}]}
const letters = 400

const paragraph = text => ({type: "paragraph", content: [{type: "text", text}]})
const docOf = (count, text) => ({type: "doc", content: Array.from({length: count}, () => paragraph(text))})
const listOf = (count, make) => Array.from({length: count}, (_, i) => make(i))

// Where letter number i is typed, by turns in so many places: after the last letter of its place, which those of the places before it
// push on.
function typedAt(i, places) {
  const place = i % places, round = Math.floor(i / places)
  return 1 + Math.floor(place * letters / places) + place * (round + 1) + round
}

// Another's letters, all over the text.
const foreignAt = i => 1 + (i * 7919) % letters

function ensure(holds, what) {
  if (!holds) throw new Error(what)
}

function timed(work) {
  const start = performance.now(), answer = work()
  return {ms: performance.now() - start, answer}
}

// ---- pending letters over another's

/// Two sides of a row: the milliseconds in which pending letters go over as many of another, in the engine and as rebaseSteps of
/// prosemirror-collab does it. Each begins with all pending steps made. All letters go into the first of so many paragraphs, which has 400
/// letters, and the others ten.
function rebasing(engine, {pending, foreign, places, paragraphs = 1}) {
  const first = paragraph("abcdefghij".repeat(letters / 10)), rest = Array(paragraphs - 1).fill(paragraph("abcdefghij"))
  const schema = schemaOf(types), doc = Node.fromJSON(schema, {type: "doc", content: [first, ...rest]})
  const letter = text => new Slice(Fragment.from(schema.text(text)), 0, 0)
  const stepAt = (at, text) => new ReplaceStep(at, at, letter(text))
  const mine = listOf(pending, i => stepAt(typedAt(i, places), "x")), others = listOf(foreign, i => stepAt(foreignAt(i), "y"))
  const answer = JSON.stringify({clientIDs: others.map(() => "bob"), steps: others, version: foreign})
  const left = []
  const ours = () => {
    const client = engine.openClient({schema, doc, clientID: "ann"})
    mine.forEach(step => client.step(step))
    const {ms, answer: took} = timed(() => client.take(answer))
    ensure(took.foreign == foreign && took.steps.length == 2 * pending + foreign - took.dropped.length, "not all letters were taken")
    left.push(client.doc().doc.textContent)
    client.close()
    return ms
  }
  const theirs = () => {
    let now = doc
    const unconfirmed = mine.map(step => {
      const inverted = step.invert(now)
      now = step.apply(now).doc
      return {step, inverted}
    })
    const tr = new Transform(now), {ms} = timed(() => rebased(unconfirmed, others, tr))
    left.push(tr.doc.textContent)
    return ms
  }
  return {sides: [ours, theirs], check: () => ensure(left.every(text => text == left[0]), "the two sides come to two documents")}
}

// ---- a letter

const EDITS = 500

/// Two sides of a row: the microseconds of one letter that is typed into a document of so many paragraphs, by a line of the client's talk
/// and its answer, and as a state of ProseMirror's without plugins applies it.
function typing(engine, {paragraphs}) {
  const schema = schemaOf(types), doc = Node.fromJSON(schema, docOf(paragraphs, "abcdefghij".repeat(6)))
  const client = engine.openClient({schema, doc, clientID: "ann"}, {Step})
  const at = i => Math.floor(doc.content.size / 2) + 1 + i
  let typed = 0, state = EditorState.create({doc})
  const ours = () => {
    const {ms} = timed(() => {
      for (let i = 0; i < EDITS; i++) client.edit({op: "text", from: at(typed), to: at(typed++), text: "x", event: 1})
    })
    ensure(client.state().size == doc.content.size + typed, "a letter is missing")
    return 1000 * ms / EDITS
  }
  const theirs = () => {
    const before = state.doc.content.size
    const {ms} = timed(() => {
      for (let i = 0; i < EDITS; i++) state = state.apply(state.tr.insertText("x", at(i)))
    })
    ensure(state.doc.content.size == before + EDITS, "a letter is missing")
    return 1000 * ms / EDITS
  }
  return {sides: [ours, theirs], check: () => client.close()}
}

/// The rows: the words of each, and its two sides.
const ROWS = [
  ...[1, 10].map(places => ({
    unit: "ms", what: `1000 over 1000, typed in ${places} place${places > 1 ? "s" : ""}`,
    work: engine => rebasing(engine, {pending: 1000, foreign: 1000, places}),
  })),
  ...[10, 5000].map(paragraphs => ({
    unit: "us", what: `a letter in ${paragraphs} paragraphs`, work: engine => typing(engine, {paragraphs}),
  })),
]

/// The figures of each row: of so many runs of each side, which take turns.
function measure(engine, runs) {
  return ROWS.map(({unit, what, work}) => {
    const {sides, check} = work(engine), figures = sides.map(() => [])
    for (let i = 0; i < runs; i++) sides.forEach((side, at) => figures[at].push(side()))
    check()
    return {unit, what, figures}
  })
}

module.exports = {measure, rebasing}
