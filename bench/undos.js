// Times the word `replay` on a session of one client that types letters into a paragraph, each in an event of its own, and then
// undoes many of them. Ours is what the undo lines add to a whole run of the program. Beside it each stored inverse is mapped over
// all later maps and applied, where a step that undoes another is its mirror, as prosemirror-history does between the steps of
// others.
// usage: node bench/undos.js [STEPS [UNDOS]]

"use strict"

const {Node, Slice, Fragment} = require("prosemirror-model")
const {Mapping, ReplaceStep} = require("prosemirror-transform")
const {schemaOf} = require("./collab")
const {ensure, fileOf, inTurn, play, row, timed, title, written} = require("./measure")

const [steps, undos] = [5000, 1000].map((n, i) => Number(process.argv[i + 2] || n))
const types = {nodes: [{name: "doc", content: "paragraph+"}, {name: "paragraph", content: "text*"}, {name: "text"}]}
const first = {type: "doc", content: [{type: "paragraph"}]}

// Where letter number i is typed, anywhere in the text so far.
const place = i => 1 + (i * 7919) % (i + 1)

function sessionOf(count) {
  const typed = Array.from({length: steps}, (_, i) => ({c: "ann", op: "text", from: place(i), to: place(i), text: "a"}))
  return fileOf([types, first, ["ann"], ...typed, ...Array(count).fill({c: "ann", op: "undo"})])
}

const lettersOf = report => /\nfinal .*"text":"(a*)"/.exec(report)[1].length

// The milliseconds of a run, whose document has to end with so many letters.
function played(session, letters) {
  const ran = play("replay", session)
  ensure(lettersOf(written(ran)) == letters, `${lettersOf(written(ran))} letters are left of ${letters}`)
  return ran.ms
}

// ProseMirror's document with all letters, the maps of its steps and what takes each back.
function typed() {
  const schema = schemaOf(types), letter = new Slice(Fragment.from(schema.text("a")), 0, 0)
  const state = {doc: Node.fromJSON(schema, first), mapping: new Mapping, inverses: []}
  for (let i = 0; i < steps; i++) {
    const step = new ReplaceStep(place(i), place(i), letter)
    state.inverses.push(step.invert(state.doc))
    state.mapping.appendMap(step.getMap())
    state.doc = step.apply(state.doc).doc
  }
  return state
}

function undone(state) {
  for (let i = steps - 1; i >= steps - undos; i--) {
    const step = state.inverses[i].map(state.mapping.slice(i + 1))
    if (!step) continue
    state.doc = step.apply(state.doc).doc
    state.mapping.appendMap(step.getMap(), i)
  }
}

const [without, all] = [sessionOf(0), sessionOf(undos)]
const ours = () => {
  const typing = played(without, steps)
  return played(all, steps - undos) - typing
}
const theirs = () => {
  const state = typed(), {ms} = timed(() => undone(state))
  ensure(state.doc.textContent.length == steps - undos, "ProseMirror's side was not undone as meant")
  return ms
}

title("the undo lines of a replay, milliseconds", "undos.js")
row(`${undos} undos over ${steps} steps`, ...inTurn([ours, theirs]))
