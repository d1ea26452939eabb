// Drives a house of many documents, and beside it a process of the live authority for each of them, or by `PM_LIVE=addon` all in
// this process. Editors of ProseMirror's own libraries make random transactions, whose messages come late, in another order, twice or
// never; documents are read at versions, let their old steps go, are closed and opened again. The house has to answer as the
// authorities do, and ProseMirror has to come to its documents by the logs. Of one seed the lines to each document are the same in each
// run. The last line is `N passed, M failed`.
// usage: node live/house-test.js [STEPS [SEED]]      until the logs have so many steps in all, HOUSE_STEPS or 3,000 unless told

"use strict"

const {Node} = require("prosemirror-model")
const {Beside} = require("./beside")
const {join} = require("./client")
const {Desk, newCounts} = require("./desk")
const {House} = require("./house")
const {between, wordsOf} = require("./house-words")
const {Played} = require("./played")
const {Draws} = require("./random")
const {schema, doc: first} = require("../tests/schema-line/basic-with-lists")

const [STEPS, SEED] = [Number(process.argv[2] || process.env.HOUSE_STEPS || 3000), Number(process.argv[3] || 1)]
const DOCUMENTS = 16, EDITORS = 3, BASIC = "basic"

let [passed, failed] = [0, 0]
function judge(isWell, what) {
  if (isWell) passed++
  else {
    failed++
    console.log(`house: ${what}`)
  }
}

// An editor, which begins anew where the house has let go what it asks for.
class HouseDesk extends Desk {
  told(what) {
    if (what == "gone") this.isGone = true
    super.told(what)
  }

  check() { if (!this.isGone) super.check() }

  async begin(clientID) {
    this.client = await join(this.log, {schema, clientID})
    Object.assign(this, {in: [], out: [], isGone: false})
  }

  post() { return this.isGone ? this.begin(this.client.clientID) : super.post() }
}

// Lines that change nothing. What is wrong with them both tell alike.
const ODD = version => [
  {op: "nothing"}, {op: "since"}, {op: "since", version: "0"}, {op: "since", version, most: -1}, {op: "submit", version},
  {op: "submit", version, clientID: 1.5, steps: []}, {op: "submit", version, clientID: "odd", steps: [{stepType: "odd"}]},
  {op: "submit", version: version + 1, clientID: "odd", steps: []}, {op: "submit", version, clientID: "odd", steps: []},
  {op: "submit", version, clientID: "odd", steps: [{stepType: "replace", from: 0, to: 4000000000}]},
]

// A document with its editors. Each act has one line for the house, so that lines of all documents lie in one order.
class Room {
  constructor(house, number, counts, words) {
    this.draws = new Draws(SEED * 1000 + number)
    this.beside = new Beside(house, `document-${number}`, schema, BASIC)
    this.desks = Array.from({length: EDITORS}, () => new HouseDesk(null, {draws: this.draws, counts, log: this.beside}))
    this.counts = counts
    this.steps = 0
    this.acts = [
      [() => this.edit(), 70], [() => this.readLog(), 7], [() => this.readDocument(), 7], [() => this.beside.ask({op: "doc"}), 2],
      [() => this.beside.ask(this.draws.one(ODD(this.beside.version))), 3], [() => this.letGo(), 2], [() => this.close(), 1],
      ...words.map(([act, weight]) => [() => act(this.beside, this.draws, counts), weight]),
    ]
  }

  // How many steps were accepted since the document was opened.
  get made() { return this.beside.isOpen ? this.beside.version - this.beside.base : 0 }

  // IDs are texts and numbers, and the same ones in each document.
  async begin(doc, version) {
    await this.beside.open(doc, version)
    for (const [i, desk] of this.desks.entries()) await desk.begin(i % 2 ? i : `editor ${i}`)
  }

  act() {
    const {beside, draws} = this
    if (!beside.isOpen) return draws.chance(40) ? beside.ask(draws.one([{op: "doc"}, {op: "since", version: 0}])) : this.openAgain()
    let draw = draws.below(this.acts.reduce((sum, [, weight]) => sum + weight, 0))
    const [act] = this.acts.find(([, weight]) => (draw -= weight) < 0)
    return act()
  }

  edit() {
    for (const desk of this.desks) if (!desk.isGone) desk.turn()
    return this.draws.one(this.desks).post()
  }

  // Versions below the first kept one, and past the end, are asked for too.
  version() { return between(this.draws, Math.max(0, this.beside.from - 2), this.beside.version + 1) }

  readLog() {
    const version = this.version(), most = this.draws.one([undefined, null, 0, 1, 5])
    return this.beside.ask({op: "since", version, ...(most !== undefined && {most})})
  }

  readDocument() { return this.beside.askDoc(this.version()) }

  letGo() {
    this.counts.forgets++
    return this.beside.forget(this.version())
  }

  async close() {
    this.counts.closes++
    this.steps += this.made
    await this.beside.close()
  }

  // Mostly where it was left: the editors go on. Else it is another document, and they begin anew.
  openAgain() {
    const {draws} = this
    if (draws.chance(80)) return this.beside.open()
    return this.begin(draws.one([first, null]), draws.below(100000))
  }

  /// All editors come to the log's end, and ProseMirror to the document by what the house has kept of it.
  async settle() {
    const {beside, desks} = this
    if (!beside.isOpen) await beside.open()
    for (const desk of [...desks, ...desks]) {
      if (desk.isGone || desk.client.version < beside.from) await desk.begin(desk.client.clientID)
      await desk.settle()
    }
    const {doc: json, version} = await beside.ask({op: "doc"}), doc = Node.fromJSON(schema, json)
    const {doc: kept} = await beside.askDoc(beside.from), {steps} = await beside.ask({op: "since", version: beside.from})
    const again = new Played(schema, Node.fromJSON(schema, kept), beside.from)
    again.play(steps)
    judge(doc.eq(again.doc) && version == again.version, `${beside.name}: ProseMirror comes to another document by the log`)
    const isHeld = ({client}) => client.version == version && client.state.doc.eq(doc)
    judge(doc.eq(beside.played.doc) && desks.every(isHeld), `${beside.name}: an editor has another document`)
  }
}

// What the house says of all documents.
async function judgeAll(house, rooms) {
  const open = rooms.map(it => it.beside).filter(it => it.isOpen).sort((a, b) => a.opened - b.opened)
  const documents = open.map(({name, from, version, played}) => ({from, in: name, schema: BASIC, size: played.doc.content.size, version}))
  const [told, wanted] = [await house.askLine('{"op":"documents"}'), JSON.stringify({documents})]
  judge(told == wanted, `the documents are ${told}, and not ${wanted}`)
  const sum = (its, of) => its.reduce((all, it) => all + of(it), 0)
  const entries = sum(open, it => it.version - it.from), tokens = sum(documents, it => it.size)
  const found = await house.askLine('{"op":"statistics"}')
  judge(found == JSON.stringify({documents: open.length, entries, schemas: 1, tokens}), `of ${entries} entries, ${tokens} tokens: ${found}`)
}

async function main() {
  const house = new House(), counts = {...newCounts(), forgets: 0, closes: 0, reverts: 0, apart: 0, refused: 0, edits: 0}
  await house.name(BASIC, schema)
  const words = await wordsOf(house)
  const rooms = Array.from({length: DOCUMENTS}, (_, i) => new Room(house, i, counts, words))
  for (const [i, room] of rooms.entries()) await room.begin(i % 4 ? first : null, i % 3 ? 0 : i * 1000)

  const made = () => rooms.reduce((sum, it) => sum + it.steps + it.made, 0)
  const order = new Draws(SEED)
  for (let round = 1; made() < STEPS; round++) {
    await Promise.all(rooms.map(room => room.act()))
    rooms.push(...rooms.splice(0, order.below(rooms.length)))
    if (round % 100 == 0) await judgeAll(house, rooms)
  }
  await Promise.all(rooms.map(room => room.settle()))
  await judgeAll(house, rooms)
  const {documents, bytes} = await house.statistics()
  judge(documents == rooms.filter(it => it.beside.isOpen).length && bytes > 1e6, `${documents} documents take ${bytes} bytes`)
  const steps = made(), answers = rooms.reduce((sum, {beside}) => sum + beside.answers, 0)
  await Promise.all(rooms.map(({beside}) => beside.close()))
  judge(await house.close() === 0, "the house did not end with status 0")
  console.log(`${steps} steps of ${DOCUMENTS} documents, ${answers} answers compared; ${JSON.stringify(counts)}`)
}

main().catch(error => judge(false, error.stack)).finally(() => {
  console.log(`seed ${SEED}\n${passed} passed, ${failed} failed`)
  process.exit(failed > 0 ? 1 : 0)
})
