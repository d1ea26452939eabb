// Times the word `check` beside ProseMirror's reading and checking of the same lines: JSON, `new Schema`, `Node.fromJSON` and
// `check`. Ours is a whole run of the program, with its start and its reading of standard input; ProseMirror's is taken inside
// of one process that runs already. What of ours is no work on the session, /bin/cat tells by a run on the same input.
// usage: node bench/check.js

"use strict"

const {Node} = require("prosemirror-model")
const {schemaOf} = require("./collab")
const {PROGRAM, ensure, fileOf, inTurn, middle, row, run, timed, title, written} = require("./measure")

// Rounds before the first that counts, by which node has compiled ProseMirror.
const WARM = 20

const small = {nodes: [{name: "doc", content: "paragraph+"}, {name: "paragraph", content: "text*"}, {name: "text"}]}

function manyTypes(types, attributes) {
  const nodes = [{name: "doc", content: "block+"}, {name: "text"}]
  for (let i = 0; i < types - 2; i++) {
    const attrs = {}
    for (let j = 0; j < attributes; j++) attrs["attribute" + j] = {default: i + j}
    nodes.push({name: "type" + i, content: "text*", group: "block", attrs})
  }
  return {nodes}
}

function paragraphs(count, letters) {
  const text = "abcdefghij".repeat(letters / 10 + 1).slice(0, letters)
  return {content: Array(count).fill({content: [{text, type: "text"}], type: "paragraph"}), type: "doc"}
}

function read(lines) {
  const doc = Node.fromJSON(schemaOf(JSON.parse(lines[0])), JSON.parse(lines[1]))
  doc.check()
  return doc.content.size
}

function measure(what, schema, doc) {
  const lines = [schema, doc, ["a"]].map(line => JSON.stringify(line)), input = fileOf(lines)
  for (let i = 0; i < WARM; i++) read(lines)
  const ours = () => {
    const ran = run([PROGRAM, "check"], input)
    ensure(written(ran) == `ok 0 ${read(lines)}\n`, `the two sides differ at ${what}`)
    return ran.ms
  }
  const [mine, theirs, floor] = inTurn([ours, () => timed(() => read(lines)).ms, () => run(["/bin/cat"], input).ms])
  row(what, mine, theirs, {note: `cat: ${middle(floor).toFixed(1)}`})
}

title("the word check, milliseconds", "check.js")
measure("a schema of 200 types with 30 attributes each", manyTypes(200, 30), {content: [{type: "type0"}], type: "doc"})
measure("10,000 paragraphs of 44 letters, a line of 1 MB", small, paragraphs(10000, 44))
measure("one paragraph of 499,000 letters", small, paragraphs(1, 499000))
