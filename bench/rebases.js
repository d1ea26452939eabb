// Times the word `replay` on a session in which one client has many pending steps when it takes the steps of another: ann types
// letters one after another, bob edits elsewhere and around and pushes, and ann pulls. Ours is a whole run of the program. Beside
// it a plain loop makes the same steps with ProseMirror and rebases them as rebaseSteps of prosemirror-collab does.
// usage: node bench/rebases.js [PENDING FOREIGN PLACES]..     PLACES: in how many places ann types by turns

"use strict"

const {Node, Slice, Fragment} = require("prosemirror-model")
const {ReplaceStep, Transform} = require("prosemirror-transform")
const {rebased, schemaOf} = require("./collab")
const {ensure, fileOf, inTurn, play, row, timed, title, written} = require("./measure")

const letters = 400
const types = {nodes: [{name: "doc", content: "paragraph+"}, {name: "paragraph", content: "text*"}, {name: "text"}]}
const first = {type: "doc", content: [{type: "paragraph", content: [{type: "text", text: "abcdefghij".repeat(letters / 10)}]}]}

// Where ann types letter number i: after the last letter of its place, which the letters of the places before it push on.
function typed(i, places) {
  const place = i % places, round = Math.floor(i / places), at = 1 + Math.floor(place * letters / places) + place * (round + 1) + round
  return {from: at, to: at, text: "x"}
}

// Bob's edits: by turns a letter put in and one taken out, from the front on, so that some are where ann types.
function edited(i) {
  const at = 1 + (i * 7919) % (letters - 1)
  return i % 2 ? {from: at, to: at + 1, text: ""} : {from: at, to: at, text: "y"}
}

const listOf = (count, make) => Array.from({length: count}, (_, i) => make(i))
const linesOf = (c, edits) => edits.map(edit => ({c, op: "text", ...edit}))

// How many of ann's steps ProseMirror keeps.
function kept(mine, foreign) {
  const schema = schemaOf(types)
  const stepOf = ({from, to, text}) => new ReplaceStep(from, to, text ? new Slice(Fragment.from(schema.text(text)), 0, 0) : Slice.empty)
  let doc = Node.fromJSON(schema, first)
  const pending = mine.map(edit => {
    const step = stepOf(edit), inverted = step.invert(doc)
    doc = step.apply(doc).doc
    return {step, inverted}
  })
  return rebased(pending, foreign.map(stepOf), new Transform(doc)).length
}

function measure(pending, foreign, places) {
  const mine = listOf(pending, i => typed(i, places)), others = listOf(foreign, edited)
  const ends = [{c: "bob", op: "push"}, {c: "ann", op: "pull"}]
  const session = fileOf([types, first, ["ann", "bob"], ...linesOf("ann", mine), ...linesOf("bob", others), ...ends])
  const left = []
  const ours = () => {
    const ran = play("replay", session), [, taken, dropped] = /rebased \d+ (\d+) (\d+)/.exec(written(ran)) || []
    ensure(Number(taken) == foreign, "ann did not take bob's steps")
    left.push(pending - dropped)
    return ran.ms
  }
  const theirs = () => {
    const {ms, answer} = timed(() => kept(mine, others))
    left.push(answer)
    return ms
  }
  const figures = inTurn([ours, theirs])
  ensure(left.every(count => count == left[0]), `the two sides keep ${left} steps`)
  row(`${pending} over ${foreign}, typed in ${places} place${places > 1 ? "s" : ""}`, ...figures)
}

const told = process.argv.slice(2).map(Number)
title("pending steps in a replay, milliseconds", "rebases.js")
for (let i = 0; i < told.length; i += 3) measure(...told.slice(i, i + 3))
