// Writes a session of the live authority: a schema, a document, and messages of random transactions that ProseMirror applies, among
// them old versions, steps that do not apply, questions and faults. The same numbers make the same lines.
// usage: node tests/wasm/session.js [LINES [SEED]]

"use strict"

const {EditorState} = require("prosemirror-state")
const {Draws, randomTransaction} = require("../../live/random")
const {schema, doc} = require("../schema-line/basic-with-lists")

const [LINES, SEED] = [Number(process.argv[2] || 300), Number(process.argv[3] || 1)]
const MOST_TOKENS = 2000
const draws = new Draws(SEED)

const FAULTS = [
  "",
  "{",
  '{"op":"nothing"}',
  '{"op":"since","version":-1}',
  '{"op":"submit","version":0,"clientID":1.5,"steps":[]}',
  '{"op":"submit","version":0,"clientID":"\\ud800","steps":[]}',
  `{"op":"doc"}${" ".repeat(1048576)}`,
]

// A transaction whose document is valid, or none: the authority refuses others.
function transaction(state) {
  try {
    const tr = randomTransaction(state, draws, MOST_TOKENS)
    if (tr) tr.doc.check()
    return tr
  } catch (error) {
    return null
  }
}

// A submission, as `state` has it now; one in ten has another version or a step that does not apply.
function submission(state, version, clientID) {
  const tr = transaction(state)
  const steps = tr ? tr.steps.map(step => step.toJSON()) : []
  if (draws.chance(5)) return {state, version, line: {op: "submit", version: draws.below(version + 2), clientID, steps}}
  if (draws.chance(5)) {
    const far = state.doc.content.size + draws.below(3)
    return {state, version, line: {op: "submit", version, clientID, steps: [{stepType: "replace", from: far, to: far + 1}]}}
  }
  return {state: tr ? state.apply(tr) : state, version: version + steps.length, line: {op: "submit", version, clientID, steps}}
}

async function main() {
  const {schemaLine, documentLine} = await import("../../bindings/js/src/lines.js")
  const lines = [schemaLine(schema), documentLine(doc)]
  let state = EditorState.create({doc}), version = 0
  while (lines.length < LINES) {
    const draw = draws.below(100)
    if (draw < 4) lines.push(FAULTS[draws.below(FAULTS.length)])
    else if (draw < 8) lines.push(JSON.stringify({op: "since", version: Math.max(version - draws.below(20), 0)}))
    else if (draw < 10) lines.push('{"op":"doc"}')
    else {
      const clientID = draws.chance(50) ? draws.below(5) : `editor ${draws.below(5)}`
      const made = submission(state, version, clientID)
      ;({state, version} = made)
      lines.push(JSON.stringify(made.line))
    }
  }
  for (const line of [...lines, '{"op":"since","version":0}', '{"op":"doc"}']) console.log(line)
}

main()
