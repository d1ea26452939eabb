// Times a line of `replay` for each kind of edit in documents of many paragraphs, and tells how the time grows from the smallest
// document to the largest. Ours is what the edit lines add to a whole run of the program: the client's edit, the authority's, which
// gets all of them at the end, and the report's lines. Beside it are ProseMirror's invert and apply of the same step for the
// client and its apply for the authority.
// usage: node bench/edits.js [PARAGRAPHS..]      each up to 10,000, or a multiple of it

"use strict"

const {Node} = require("prosemirror-model")
const {Step} = require("prosemirror-transform")
const {schemaOf} = require("./collab")
const {ensure, fileOf, inTurn, middle, play, row, timed, title, written} = require("./measure")

const types = {
  marks: [{name: "strong"}],
  nodes: [{name: "doc", content: "p+"}, {name: "p", content: "text*"}, {name: "text"}],
  version: 2,
}
const paragraph = {content: [{text: "ab", type: "text"}], type: "p"}, size = 4
const paragraphs = count => Array(count).fill(paragraph)
// A line of a session can hold as many.
const MOST_IN_A_LINE = 10000
// ProseMirror copies the list of all paragraphs for each step, and no whole run is subtracted, so few lines tell enough.
const THEIR_LINES = 20
// In how many paragraphs letters are typed by turns, so that no text grows long.
const TYPED = 500

const replace = (from, to, content, open = 0) =>
  ({stepType: "replace", from, to, ...content && {slice: {content, ...open && {openStart: open, openEnd: open}}}})

function letter(i, count) {
  const round = Math.floor(i / TYPED), at = (count >> 1) * size + (i % TYPED) * (size + round + 1) + 1
  return replace(at, at, [{type: "text", text: "x"}])
}

// The step of line i in a document of so many paragraphs that had the earlier steps of its kind, and how many times longer it may
// take in the largest document than in the smallest.
const KINDS = {
  "a letter typed in the middle": [letter, 4 / 3],
  "a paragraph's text marked, from the end on": [
    (i, count) => ({stepType: "addMark", mark: {type: "strong"}, from: (count - i - 1) * size + 1, to: (count - i) * size - 1}), 4 / 3],
  "a paragraph inserted at the front": [() => replace(0, 0, [paragraph]), 5],
  "a paragraph split, from the front on": [i => replace(i * (size + 2) + 2, i * (size + 2) + 2, [{type: "p"}, {type: "p"}], 1), 5],
  "a paragraph deleted in the middle": [(i, count) => replace(((count >> 1) - i) * size, ((count >> 1) - i + 1) * size), 5],
}

const stepsOf = (make, lines, count) => Array.from({length: lines}, (_, i) => make(i, count))

// What a line can't hold of the document is put in by steps of its own.
const beyond = count => Math.max(count / MOST_IN_A_LINE - 1, 0)

function sessionOf(count, steps) {
  const doc = {content: paragraphs(Math.min(count, MOST_IN_A_LINE)), type: "doc"}
  const lineOf = step => ({c: "ann", op: "step", step})
  const more = Array(beyond(count)).fill(lineOf(replace(0, 0, doc.content)))
  return fileOf([types, doc, ["ann"], ...more, {c: "ann", op: "push"}, ...steps.map(lineOf)])
}

function milliseconds(session, made) {
  const ran = play("replay", session)
  ensure((written(ran).match(/^\d+ made 1$/gm) || []).length == made, "a step was not made")
  return ran.ms
}

function theirs(doc, steps) {
  let client = doc, authority = doc
  for (const step of steps) {
    step.invert(client)
    client = step.apply(client).doc
  }
  for (const step of steps) authority = step.apply(authority).doc
  return client.eq(authority)
}

// From 100 to 10,000 lines, as many as add to a run about what it takes without them, so that they are well above what one run
// differs from the next.
function linesFor(make, count, base) {
  const added = milliseconds(sessionOf(count, stepsOf(make, 100, count)), 100 + beyond(count)) - base
  return 100 * Math.round(Math.max(1, Math.min(base / Math.max(added, base / 100), 100, count / 200)))
}

// The microseconds of a line of each kind, ours and ProseMirror's.
function measure(count) {
  const schema = schemaOf(types), doc = Node.fromJSON(schema, {type: "doc", content: paragraphs(count)})
  const without = sessionOf(count, []), bare = () => milliseconds(without, beyond(count))
  let base = Math.min(bare(), bare())
  const sides = Object.values(KINDS).flatMap(([make]) => {
    const lines = linesFor(make, count, base), session = sessionOf(count, stepsOf(make, lines, count))
    const steps = stepsOf(make, THEIR_LINES, count).map(step => Step.fromJSON(schema, step))
    const ours = () => 1000 * (milliseconds(session, lines + beyond(count)) - base) / lines
    return [ours, () => 1000 * timed(() => ensure(theirs(doc, steps), "ProseMirror's documents differ")).ms / THEIR_LINES]
  })
  // The run without the lines comes first in each turn.
  const [, ...figures] = inTurn([() => { base = bare() }, ...sides])
  return Object.keys(KINDS).map((_, at) => figures.slice(2 * at, 2 * at + 2))
}

const told = process.argv.slice(2).map(Number), sizes = told.length ? told : [2000, 20000, 200000]
const found = sizes.map(measure)
title("a line in N paragraphs, microseconds", "edits.js")
Object.entries(KINDS).forEach(([kind, [, most]], at) => {
  sizes.forEach((count, i) => {
    const [ours, other] = found[i][at], grown = middle(ours) / middle(found[0][at][0])
    const note = i && i == sizes.length - 1 ? `x${grown.toFixed(2)}, at most x${most.toFixed(2)}` : ""
    row(i ? `  ${count}` : `${kind}, ${count}`, ours, other, {note})
  })
})
