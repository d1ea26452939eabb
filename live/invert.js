// What takes a step back, exactly. `Step.invert` of ProseMirror is not always that: the inverse of an `AddMarkStep` takes the mark
// away from the whole range, also where it stood before, and a mark that was pushed out does not come back. `Transform.addMark`
// makes steps of which the inverse is exact, but a step that was carried over others' steps may have come to such a range. An
// editor that takes such a step back by its inverse no longer holds the document of the others.

"use strict"

const {AddMarkStep, RemoveMarkStep, ReplaceStep} = require("prosemirror-transform")

const isMarkStep = step => step instanceof AddMarkStep || step instanceof RemoveMarkStep

// The inline nodes of a range, as runs of one set of marks.
function runsOf(doc, from, to) {
  const runs = []
  doc.nodesBetween(from, to, (node, pos) => {
    if (node.isInline) runs.push({from: Math.max(from, pos), to: Math.min(to, pos + node.nodeSize), marks: node.marks})
  })
  return runs
}

const sameMarks = (a, b) => a.length == b.length && a.every((mark, i) => mark.eq(b[i]))

// The marks of `doc` given back where `changed` has others, run by run. Neither document's text differs from the other's.
function marksBack(doc, changed, from, to) {
  const steps = []
  const news = runsOf(changed, from, to)
  for (const old of runsOf(doc, from, to)) {
    for (const run of news) {
      const start = Math.max(old.from, run.from), end = Math.min(old.to, run.to)
      if (start >= end || sameMarks(old.marks, run.marks)) continue
      for (const mark of run.marks) steps.push(new RemoveMarkStep(start, end, mark))
      for (const mark of old.marks) steps.push(new AddMarkStep(start, end, mark))
    }
  }
  return steps
}

// The range of `doc` that the step overwrites, put back as it was.
function rangeBack(step, doc) {
  const map = step.getMap()
  return [new ReplaceStep(map.map(step.from, -1), map.map(step.to, 1), doc.slice(step.from, step.to))]
}

// The whole document. It is needed where ProseMirror has let a node come to content that is not valid, which it then puts into no
// node again.
const allBack = (doc, changed) => [new ReplaceStep(0, changed.content.size, doc.slice(0, doc.content.size))]

function leadBack(steps, changed, doc) {
  let led = changed
  for (const step of steps) led = led && step.apply(led).doc
  return led && led.eq(doc)
}

/// The steps that give `doc` back after `step` was applied to it, in the order in which they are applied. It is the one step of
/// `step.invert(doc)` wherever that gives `doc` back.
function invertStep(step, doc) {
  const changed = step.apply(doc).doc
  if (!changed) throw new RangeError("a step that does not apply has no inverse")
  const inverse = [step.invert(doc)]
  if (leadBack(inverse, changed, doc)) return inverse
  const back = isMarkStep(step) ? marksBack(doc, changed, step.from, step.to) : rangeBack(step, doc)
  return leadBack(back, changed, doc) ? back : allBack(doc, changed)
}

function rangesOf(map) {
  const ranges = []
  map.forEach((...range) => ranges.push(range))
  return String(ranges)
}

/// Whether an inverse moves positions back just as the step's map moved them, so that the two can be mirrors in a mapping.
const isMirror = (map, inverse) => inverse.length == 1 && rangesOf(inverse[0].getMap()) == rangesOf(map.invert())

module.exports = {invertStep, isMirror}
