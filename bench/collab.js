// What the benchmarks share of ProseMirror's collab and of sessions: Debian has no package of prosemirror-collab.

"use strict"

const {Schema, Node} = require("prosemirror-model")

/// The schema of a session's first line.
function schemaOf({nodes, marks = [], topNode}) {
  const named = types => Object.fromEntries(types.map(({name, ...rest}) => [name, rest]))
  return new Schema({nodes: named(nodes), marks: named(marks), topNode})
}

/// Carries pending steps over those of others, as rebaseSteps of prosemirror-collab does, and gives those that are kept. A pending
/// step stands with its inverse; the transform begins with the document that has the pending steps.
function rebased(pending, over, transform) {
  for (let i = pending.length - 1; i >= 0; i--) transform.step(pending[i].inverted)
  for (const step of over) transform.step(step)
  const kept = []
  for (let i = 0, from = pending.length; i < pending.length; i++) {
    const step = pending[i].step.map(transform.mapping.slice(from))
    from--
    if (step && !transform.maybeStep(step).failed) {
      transform.mapping.setMirror(from, transform.steps.length - 1)
      kept.push({step, inverted: step.invert(transform.docs[transform.docs.length - 1])})
    }
  }
  return kept
}

module.exports = {schemaOf, rebased}
