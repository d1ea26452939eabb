// Drives editors of ProseMirror's own libraries over the live authority. They make random transactions of the basic schema with
// lists, and undo and redo; messages come late, answers come late, twice or never. At the end each editor has to hold the
// authority's document, and so has ProseMirror where it applies the log. A step that the authority refuses, and that ProseMirror
// applied, is counted by its kind, which has to be one that docs/embed/PROSEMIRROR.md names. The last line is `N passed, M failed`.
// usage: node live/test.js [STEPS [SEED]]      until the log has so many steps, 10,000 unless told

"use strict"

const fs = require("fs")
const path = require("path")
const {Node} = require("prosemirror-model")
const {join, startAuthority} = require("./client")
const {Desk, newCounts} = require("./desk")
const {Played} = require("./played")
const {Draws} = require("./random")
const {schema, doc: first} = require("../tests/schema-line/basic-with-lists")

const [STEPS, SEED] = [Number(process.argv[2] || 10000), Number(process.argv[3] || 1)]
const EDITORS = 8
const draws = new Draws(SEED), log = new Played(schema, first)

let [passed, failed] = [0, 0]
function judge(isWell, what) {
  if (isWell) passed++
  else {
    failed++
    console.log(`live: ${what}`)
  }
}

// ---- what is refused

const refusals = new Map()
const stepName = step => step.toJSON().stepType

function noteRefusal(step, answer) {
  const kind = answer.refused ? `reason ${answer.refused.reason}` : `code ${answer.fault}`
  const steps = refusals.get(kind) || {}
  steps[stepName(step)] = (steps[stepName(step)] || 0) + 1
  refusals.set(kind, steps)
}

// The reasons and codes that docs/embed/PROSEMIRROR.md names: `reason 9`, `reasons 7 and 8`, `code 12`.
function namedKinds() {
  const page = fs.readFileSync(path.join(__dirname, "..", "docs", "embed", "PROSEMIRROR.md"), "utf8")
  const named = new Set()
  for (const [, word, numbers] of page.matchAll(/\b(reason|code)s? (\d+(?:(?:,| and) \d+)*)/g))
    for (const number of numbers.match(/\d+/g)) named.add(`${word} ${number}`)
  return named
}

// ---- editors that work at once

const counts = newCounts()

// Each editor does something, and then some messages are presented at once, in the order of the desks.
async function round(desks) {
  for (const desk of desks) desk.turn()
  await Promise.all(desks.filter(() => draws.chance(60)).map(desk => desk.post()))
  desks.push(...desks.splice(0, draws.below(desks.length)))
}

function isValid(doc) {
  try {
    doc.check()
    return true
  } catch (error) {
    return false
  }
}

async function main() {
  const authority = await startAuthority(schema, first)
  const desks = []
  // A client's ID is a text or a whole number.
  for (let i = 0; i < EDITORS; i++)
    desks.push(new Desk(await join(authority, {schema, clientID: i % 2 ? i : `editor ${i}`, onDrop: noteRefusal}), {draws, counts, log}))

  while (log.version < STEPS) await round(desks)
  for (const desk of [...desks, ...desks]) await desk.settle()

  const {doc: json, version} = await authority.ask({op: "doc"})
  const doc = Node.fromJSON(schema, json)
  judge(isValid(doc), "ProseMirror does not find the authority's document valid")
  judge(version >= STEPS && version == log.version, `the log has ${version} steps, and ${log.version} were accepted`)
  judge(doc.eq(log.doc), "ProseMirror comes to another document by the steps that were accepted")
  const again = new Played(schema, first)
  again.play((await authority.ask({op: "since", version: 0})).steps)
  judge(doc.eq(again.doc), "ProseMirror comes to another document by the log")
  for (const {client} of desks)
    judge(client.version == version && client.state.doc.eq(doc), `the editor ${client.clientID} has another document`)
  judge(await authority.close() === 0, "the authority did not end with status 0")

  const named = namedKinds()
  for (const [kind, steps] of [...refusals].sort()) {
    console.log(`refused for ${kind}: ${Object.entries(steps).map(([name, count]) => `${count} ${name}`).join(", ")}`)
    judge(named.has(kind), `docs/embed/PROSEMIRROR.md does not name ${kind}`)
  }
  console.log(`${version} steps of ${EDITORS} editors, seed ${SEED}; a document of ${doc.content.size} tokens`)
  console.log(JSON.stringify(counts))
}

main().catch(error => judge(false, error.stack)).finally(() => {
  console.log(`${passed} passed, ${failed} failed`)
  process.exit(failed > 0 ? 1 : 0)
})
