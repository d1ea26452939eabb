// Times the live authority beside one in node that applies steps by ProseMirror's `step.apply` (bench/live-authority.js), both as
// processes that the same loop feeds over pipes. Editors type ten letters and take them back, one letter at a time, each at a
// place of its own and all at once: in each round every editor submits a letter at the version that it knows; one is accepted, and
// the others ask for what they missed, carry their place past it and submit again, until all letters of the round stand in the
// log. So the document stays as large as it was. At the end the documents of both are compared. Beside the letters in a second it
// tells the processor's time that the authority took for a letter, threads and all, which other work on the machine changes little;
// and the letters in a second where ProseMirror's authority is a part of the loop's own process, which needs no pipes. Then it
// tells the greatest resident memory after many letters of one editor that does not wait.
// usage: node bench/live.js

"use strict"

const fs = require("fs")
const path = require("path")
const {Authority} = require("../live/authority")
const {NodeAuthority} = require("./live-authority")
const {LIVE, RUNS, busy, middle, row, title} = require("./measure")

// The processes, and null for ProseMirror's authority in this process.
const SIDES = [[LIVE], ["node", path.join(__dirname, "live-authority.js")], null]
// Each editor ends amid its ten letters, so that the document at the end tells something.
const LETTERS = {1: 3205, 32: 800}, WARM = 640, IN_A_ROW = 10
const MEMORY_LETTERS = 20000, AT_ONCE = 100

// ---- the document: paragraphs of 200 tokens

const schema = {
  marks: [{name: "em"}],
  nodes: [{name: "doc", content: "paragraph+"}, {name: "paragraph", content: "text*"}, {name: "text"}],
  version: 2,
}
const paragraph = {content: [{text: "abcdefghi ".repeat(20).slice(0, 198), type: "text"}], type: "paragraph"}
const documentOf = tokens => ({content: Array(tokens / 200).fill(paragraph), type: "doc"})

// ProseMirror's authority in this process, with the calls of `Authority` that are used here.
class Inside extends NodeAuthority {
  async askAll(lines) { return lines.map(line => this.answer(line)) }

  close() {}
}

// A process. The lines of a list are written at once.
class Outside extends Authority {
  askAll(lines) {
    this.process.stdin.cork()
    const answers = lines.map(line => this.askLine(line))
    this.process.stdin.uncork()
    return Promise.all(answers)
  }

  // The processor's time that it took so far, in nanoseconds.
  busy() { return busy(this.process.pid) }
}

async function open(words, tokens) {
  const lines = [schema, documentOf(tokens)].map(line => JSON.stringify(line))
  const authority = words ? new Outside(words) : new Inside()
  const answer = words ? await authority.askLine(lines.join("\n")) : (await authority.askAll(lines))[1]
  if (answer != `{"size":${tokens},"version":0}`) throw new Error(`the authority answers ${answer}`)
  return authority
}

// ---- editors

class Editor {
  constructor(number, editors, tokens) {
    this.clientID = number
    this.version = 0
    this.made = 0
    this.pos = 200 * Math.floor(number * tokens / 200 / editors) + 1 + number
  }

  submission() {
    const [from, to] = this.isTyping() ? [this.pos, this.pos] : [this.pos - 1, this.pos]
    return submission(this.clientID, this.version, from, to)
  }

  question() { return JSON.stringify({op: "since", version: this.version}) }

  isTyping() { return this.made % (2 * IN_A_ROW) < IN_A_ROW }

  confirm() {
    this.pos += this.isTyping() ? 1 : -1
    this.made++
    this.version++
  }

  receive({steps, version}) {
    for (const {from, to} of steps) if (to <= this.pos) this.pos += from == to ? 1 : -1
    this.version = version
  }
}

// A letter at an empty range, or the range deleted.
function submission(clientID, version, from, to) {
  const step = {from, stepType: "replace", to}
  if (from == to) step.slice = {content: [{text: "x", type: "text"}]}
  return JSON.stringify({clientID, op: "submit", steps: [step], version})
}

// The answers to a list of lines, in order.
async function askAll(authority, lines) { return (await authority.askAll(lines)).map(answer => JSON.parse(answer)) }

// Each editor's letter comes to stand in the log.
async function round(authority, editors) {
  let open = editors
  while (open.length) {
    const answers = await askAll(authority, open.map(it => it.submission()))
    const behind = open.filter((_, i) => !answers[i].accepted)
    open.filter(it => !behind.includes(it)).forEach(it => it.confirm())
    if (behind.length == open.length) throw new Error(`no letter was accepted: ${JSON.stringify(answers[0])}`)
    const missed = await askAll(authority, behind.map(it => it.question()))
    behind.forEach((it, i) => it.receive(missed[i]))
    open = behind
  }
}

const sorted = value => JSON.stringify(value, (_, it) =>
  it && typeof it == "object" && !Array.isArray(it) ? Object.fromEntries(Object.entries(it).sort()) : it)

// ---- what is measured

// Letters that are accepted in a second, the processor's microseconds of one, and the document at the end.
async function speed(words, tokens, count) {
  const authority = await open(words, tokens)
  const editors = Array.from({length: count}, (_, i) => new Editor(i, count, tokens))
  // Another editor is the first in each round.
  const turn = async rounds => {
    for (let i = 0; i < rounds; i++) {
      await round(authority, editors)
      editors.push(editors.shift())
    }
  }
  await turn(WARM / count)
  const start = process.hrtime.bigint(), before = words && authority.busy()
  await turn(LETTERS[count] / count)
  const seconds = Number(process.hrtime.bigint() - start) / 1e9
  const micros = words && (authority.busy() - before) / LETTERS[count] / 1000
  const doc = sorted(...await askAll(authority, ['{"op":"doc"}']))
  await authority.close()
  return {speed: LETTERS[count] / seconds, micros, doc}
}

// The greatest resident memory in MB, and the letters in a second. A hundred letters at once go into each paragraph, from the last
// one to the first, and so on again.
async function memory(words, tokens) {
  const authority = await open(words, tokens), paragraphs = tokens / 200
  const start = process.hrtime.bigint()
  for (let i = 0; i < MEMORY_LETTERS / AT_ONCE; i++) {
    const longer = 200 + AT_ONCE * Math.floor(i / paragraphs), first = (paragraphs - 1 - i % paragraphs) * longer + 1
    const lines = Array.from({length: AT_ONCE}, (_, n) => submission(0, AT_ONCE * i + n, first + n, first + n))
    const answers = await askAll(authority, lines)
    if (!answers.every(it => it.accepted)) throw new Error("a letter was not accepted")
  }
  const seconds = Number(process.hrtime.bigint() - start) / 1e9
  const status = fs.readFileSync(`/proc/${authority.process.pid}/status`, "utf8")
  await authority.close()
  return {megabytes: Number(/VmHWM:\s+(\d+)/.exec(status)[1]) / 1024, speed: MEMORY_LETTERS / seconds}
}

// ---- the table

// The answers of so many runs of each side, which take turns.
async function inTurn(sides, work) {
  const found = sides.map(() => [])
  for (let i = 0; i < RUNS; i++) for (const [at, side] of sides.entries()) found[at].push(await work(side))
  return found
}

const of = (runs, key) => runs.map(ran => ran[key])

async function measure(tokens, count) {
  const [ours, theirs, inside] = await inTurn(SIDES, words => speed(words, tokens, count))
  if ([ours, theirs, inside].flat().some(({doc}) => doc != ours[0].doc)) throw new Error("the sides differ")
  const note = `in process: ${middle(of(inside, "speed")).toFixed(0)}`
  const label = `${tokens} tokens, ${count} editor${count > 1 ? "s" : ""}, letters a second`
  row(label, of(ours, "speed"), of(theirs, "speed"), {isSpeed: true, note})
  row("  the processor's microseconds for a letter", of(ours, "micros"), of(theirs, "micros"))
}

async function main() {
  title("letters of editors at once", "live.js")
  for (const tokens of [4000, 400000]) for (const count of [1, 32]) await measure(tokens, count)
  title(`${MEMORY_LETTERS} letters of one editor without waiting`, "live.js")
  const [ours, theirs] = await inTurn(SIDES.slice(0, 2), words => memory(words, 400000))
  row("400000 tokens, letters a second", of(ours, "speed"), of(theirs, "speed"), {isSpeed: true})
  row("  greatest memory, MB", of(ours, "megabytes"), of(theirs, "megabytes"))
}

main().catch(error => {
  console.error(`bench: ${error.message}`)
  process.exit(1)
})
