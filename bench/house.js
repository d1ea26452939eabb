// Times a house of many documents (docs/use/HOUSE.md), as a process over pipes:
//   - its memory with many open documents, and a letter in each by turns beside a letter in one of them;
//   - the last ten entries of a long log beside those of a short one;
//   - its memory while letters come and old steps go;
//   - a revert of an old entry, beside ProseMirror that maps the inverse over the later maps and applies it.
// The note says what is asked. Times are those of the process's processor, which other work on the machine changes little.
// usage: node bench/house.js [DOCUMENTS [LETTERS]]      10000 documents and 1000000 letters unless told

"use strict"

const fs = require("fs")
const {Schema, Node} = require("prosemirror-model")
const {Step, Mapping} = require("prosemirror-transform")
const {Authority} = require("../live/authority")
const {schema, documentOf} = require("./letter")
const {LIVE, RUNS, busy, ensure, row, title} = require("./measure")

const DOCUMENTS = Number(process.argv[2] || 10000), LETTERS = Number(process.argv[3] || 1000000)
const TOKENS = 4000, TURNS = 20000, TOGETHER = 1000

// ---- a house

class House extends Authority {
  constructor() { super([...LIVE.split(" "), "many"]) }

  get pid() { return this.process.pid }

  /// The answers to messages that are sent at once.
  askAll(messages) { return Promise.all(messages.map(message => this.ask(message))) }

  /// The microseconds of the processor for each of these messages, and the answers.
  async timed(messages) {
    const before = busy(this.pid), answers = []
    for (let at = 0; at < messages.length; at += TOGETHER) answers.push(...await this.askAll(messages.slice(at, at + TOGETHER)))
    return {micros: (busy(this.pid) - before) / 1000 / messages.length, answers}
  }

  megabytes() {
    return Number(/^VmRSS:\s+(\d+)/m.exec(fs.readFileSync(`/proc/${this.pid}/status`, "utf8"))[1]) / 1024
  }

  open(name, version = 0) { return this.ask({op: "open", in: name, schema: "s", doc: documentOf(TOKENS), version}) }
}

async function begun() {
  const house = new House()
  await house.ask({op: "schema", name: "s", schema})
  return house
}

// A letter at version n, which is typed and taken back by turns, so that the document stays as large as it was.
function letter(name, version) {
  const at = 101, isTyped = version % 2 == 0
  const step = {stepType: "replace", from: at, to: isTyped ? at : at + 1}
  if (isTyped) step.slice = {content: [{type: "text", text: "x"}]}
  return {op: "submit", in: name, version, clientID: 0, steps: [step]}
}

const letters = (name, from, count) => Array.from({length: count}, (_, i) => letter(name, from + i))

async function type(house, name, from, count) {
  const {micros, answers} = await house.timed(letters(name, from, count))
  ensure(answers.every(answer => answer.accepted), "a letter is not accepted")
  return micros
}

// ---- the rows

async function manyDocuments() {
  const house = await begun(), name = i => `d${i}`
  for (let i = 0; i < DOCUMENTS; i++) await house.open(name(i))
  title("many open documents of 4,000 tokens", "house.js", "")
  row(`MB with ${DOCUMENTS} of them`, [house.megabytes()], [], {note: "1,200 are asked"})
  title("a letter, in microseconds", "house.js", "in one document")
  // The n-th letter, over all documents but the first by turns.
  const others = DOCUMENTS - 1, nth = n => letter(name(1 + n % others), Math.floor(n / others))
  const one = [], all = []
  let version = 0, turn = 0
  await type(house, name(0), 0, TURNS)
  version += TURNS
  for (let run = 0; run < RUNS; run++) {
    one.push(await type(house, name(0), version, TURNS))
    version += TURNS
    const {micros, answers} = await house.timed(Array.from({length: TURNS}, (_, i) => nth(turn + i)))
    turn += TURNS
    ensure(answers.every(answer => answer.accepted), "a letter is not accepted")
    all.push(micros)
  }
  row("spread over all documents", all, one, {note: "1.5 is asked"})
  await house.close()
}

async function longLogs() {
  const house = await begun(), sizes = [1000, 100000]
  const figures = []
  for (const size of sizes) {
    const name = `n${size}`
    await house.open(name)
    await type(house, name, 0, size)
    const asks = Array(1000).fill({op: "since", in: name, version: size - 10})
    await house.timed(asks)
    const each = []
    for (let run = 0; run < RUNS; run++) each.push((await house.timed(asks)).micros)
    figures.push(each)
  }
  title("the last ten entries, in microseconds", "house.js", "of 1,000 steps")
  row("of 100,000 steps", figures[1], figures[0], {note: "1 is asked"})
  await house.close()
}

async function forgetting() {
  const house = await begun(), every = 1000
  await house.open("a")
  const grown = []
  for (let version = 0; version < LETTERS; version += every) {
    await type(house, "a", version, every)
    await house.ask({op: "forget", in: "a", version: version + every})
    if ((version + every) % Math.max(every, LETTERS / 10) == 0) grown.push(house.megabytes())
  }
  title("MB while old steps go every 1,000 letters", "house.js", "after the first tenth")
  row(`after ${LETTERS} letters`, [grown.at(-1)], [grown[0]], {note: "1.05 is asked"})
  await house.close()
}

async function reverting() {
  const house = await begun(), later = 10000, ours = [], theirs = []
  const byName = types => Object.fromEntries((types || []).map(({name, ...rest}) => [name, rest]))
  const types = new Schema({nodes: byName(schema.nodes)})
  const at = TOKENS - 50, first = {stepType: "replace", from: at, to: at, slice: {content: [{type: "text", text: "y"}]}}
  for (let run = 0; run < RUNS; run++) {
    const name = `r${run}`
    await house.open(name)
    await house.ask({op: "submit", in: name, version: 0, clientID: 0, steps: [first]})
    await type(house, name, 1, later)
    const {micros, answers} = await house.timed([{op: "revert", in: name, clientID: 1, from: 0, count: 1}])
    ensure(answers[0].accepted && answers[0].accepted.count == 1, `a revert is answered ${JSON.stringify(answers[0])}`)
    ours.push(micros)
    const {steps} = await house.ask({op: "since", in: name, version: 0})
    const made = steps.slice(0, later + 1).map(json => Step.fromJSON(types, json))
    let doc = Node.fromJSON(types, documentOf(TOKENS))
    const inverse = made[0].invert(doc)
    for (const step of made) doc = step.apply(doc).doc
    const start = performance.now()
    const mapped = inverse.map(new Mapping(made.slice(1).map(step => step.getMap())))
    const result = mapped.apply(doc)
    theirs.push(1000 * (performance.now() - start))
    const told = await house.ask({op: "doc", in: name})
    ensure(result.doc.eq(Node.fromJSON(types, told.doc)), "the documents differ")
  }
  title("a revert over 10,000 later entries, in microseconds", "house.js")
  row("of the first entry", ours, theirs, {note: "0.1 is asked"})
  await house.close()
}

async function main() {
  await manyDocuments()
  await longLogs()
  await forgetting()
  await reverting()
}

main()
