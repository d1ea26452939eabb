// Tests an editor of the live authority without a process: exact inverses, answers that come late or twice, steps that are refused,
// and undo amid others' changes. The last line is `N passed, M failed`.
// usage: node live/editor-test.js

"use strict"

const {AddMarkStep} = require("prosemirror-transform")
const {Editor} = require("./editor")
const {invertStep} = require("./invert")
const {undo, redo} = require("./undo")
const {schema} = require("../tests/schema-line/basic-with-lists")

const {doc, paragraph} = schema.nodes
const {strong, link} = schema.marks
const text = (words, ...marks) => schema.text(words, marks)
const document = (...content) => doc.create(null, paragraph.create(null, content))

let [passed, failed] = [0, 0]
function same(found, wanted, what) {
  if (String(found) == String(wanted)) passed++
  else {
    failed++
    console.log(`editor: ${what}: ${found}, and not ${wanted}`)
  }
}

// An authority in a few lines: a log that takes what comes at its length.
class Log {
  constructor(first) {
    this.first = first
    this.entries = []
  }

  // Each edit is an event of its own, also where two come within one millisecond.
  join(clientID, options) { return new Editor({doc: this.first, clientID, undo: {newGroupDelay: -1}, ...options}) }

  ask({line}) {
    if (line.op == "submit" && line.version != this.entries.length) return {version: this.entries.length}
    if (line.op == "submit") {
      for (const step of line.steps) this.entries.push({step, clientID: line.clientID})
      return {accepted: {count: line.steps.length, from: line.version}}
    }
    const since = this.entries.slice(line.version)
    return {clientIDs: since.map(it => it.clientID), steps: since.map(it => it.step), version: this.entries.length}
  }

  send(editor) {
    const message = editor.compose()
    return editor.take(message, this.ask(message))
  }

  settle(...editors) {
    for (let i = 0; i < 6; i++) for (const editor of editors) this.send(editor)
  }
}

const type = (editor, words, from, to = from) => editor.dispatch(editor.state.tr.insertText(words, from, to))
const words = editor => editor.state.doc.textContent

function inversesAreExact() {
  const first = document(text("ab", strong.create()), text("cd"), text("ef", link.create({href: "a"})))
  for (const mark of [strong.create(), link.create({href: "b"})]) {
    const step = new AddMarkStep(1, 7, mark)
    let back = step.apply(first).doc
    for (const inverse of invertStep(step, first)) back = inverse.apply(back).doc
    same(back, first, `the inverse of a step that adds ${mark.type.name}`)
  }
}

function answersComeLateOrTwice() {
  const log = new Log(document(text("0123"))), ann = log.join("ann"), bob = log.join(1)
  type(ann, "a", 1)
  const first = ann.compose(), accepted = log.ask(first)
  type(ann, "b", 2)
  type(bob, "c", 5)
  same(log.send(bob), "behind", "a submission at an old version")
  same(log.send(bob), "received", "the question that follows")
  const twice = log.ask(first)
  same(ann.take(first, accepted), "confirmed", "a late answer")
  same(ann.take(first, accepted), "stale", "the same answer again")
  same(ann.take(first, twice), "stale", "the answer to the message that was presented twice")
  same(ann.unconfirmed.length, 1, "unconfirmed steps")
  log.settle(ann, bob)
  same(words(ann), "ab0123c", "the text of ann")
  same(words(bob), "ab0123c", "the text of bob")
}

function ownStepsComeBackInTheLog() {
  const log = new Log(document(text("0123"))), ann = log.join("ann"), bob = log.join("bob")
  type(ann, "a", 1)
  log.ask(ann.compose())
  log.settle(bob)
  type(bob, "b", 2)
  log.settle(bob)
  type(ann, "c", 6)
  log.settle(ann, bob)
  same(words(ann), "ab0123c", "the text after a lost answer")
  same(words(bob), words(ann), "the text of the other")
}

function refusedStepsAreDropped() {
  const dropped = []
  const log = new Log(document(text("0123"))), ann = log.join("ann", {onDrop: (step, why) => dropped.push(JSON.stringify(why))})
  for (const word of ["a", "b", "c"]) type(ann, word, 1)
  const message = ann.compose(), answer = {refused: {at: 1, index: 1, reason: 9}}
  same(ann.take(message, answer), "dropped", "a refused step")
  same(words(ann), "ca0123", "the text without it")
  same(ann.take(message, answer), "stale", "the same answer again")
  ann.take(ann.compose(), {fault: 12})
  same(ann.compose().line.steps.length, 1, "steps of the line after a fault")
  ann.take(ann.compose(), {fault: 12})
  same(words(ann), "c0123", "the text without the step that has the fault")
  same(dropped, [JSON.stringify(answer), JSON.stringify({fault: 12})], "what was told")
}

function undoGoesAmidOthersChanges() {
  const log = new Log(document(text("0123"))), ann = log.join("ann"), bob = log.join("bob")
  const run = (editor, command) => command(editor.state, tr => editor.dispatch(tr))
  type(ann, "ann", 3)
  type(bob, "bob", 1)
  log.settle(bob, ann)
  ann.dispatch(ann.state.tr.delete(1, 8))
  run(ann, undo)
  log.settle(ann, bob)
  same(words(ann), "bob01ann23", "the text after a deletion was undone")
  type(bob, "!", 11)
  run(ann, undo)
  log.settle(bob, ann)
  same(words(bob), "bob0123!", "the text after the next undo")
  run(ann, redo)
  run(bob, undo)
  log.settle(ann, bob)
  same(words(ann), "bob01ann23", "the text after a redo of one and an undo of the other")
  same(words(bob), words(ann), "the text of the other")
  run(ann, redo)
  same(words(ann), "n23", "the text after the next redo")
}

inversesAreExact()
answersComeLateOrTwice()
ownStepsComeBackInTheLog()
refusedStepsAreDropped()
undoGoesAmidOthersChanges()
console.log(`${passed} passed, ${failed} failed`)
process.exit(failed > 0 ? 1 : 0)
