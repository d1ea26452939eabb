// Whether all agree: the editors, the server, what is kept, and a fold by ProseMirror over the log.

import assert from "node:assert/strict"
import {packageOf} from "../packages.js"
import {tokenFor} from "./talker.js"

const {Schema, Node} = packageOf("prosemirror-model")
const {Step} = packageOf("prosemirror-transform")
const basic = packageOf("prosemirror-schema-basic").schema
const {addListNodes} = packageOf("prosemirror-schema-list")

const schema = new Schema({nodes: addListNodes(basic.spec.nodes, "paragraph block*", "block"), marks: basic.spec.marks})

/** The document to which ProseMirror comes by the steps. */
export function folded(doc, steps) {
  return steps.reduce((before, json) => {
    const {doc: next, failed} = Step.fromJSON(schema, json).apply(before)
    assert.ok(next, failed)
    return next
  }, Node.fromJSON(schema, doc))
}

export async function read(address, path) {
  const response = await fetch(`${address}/documents/${path}`, {headers: {Authorization: `Bearer ${tokenFor("reader")}`}})
  assert.equal(response.status, 200, path)
  return response.json()
}

/** The whole log, in as many parts as it comes. */
export async function logOf(address, document) {
  const {doc} = await read(address, `${document}/first`), clientIDs = [], steps = []
  for (;;) {
    const part = await read(address, `${document}/entries?from=${steps.length}`)
    clientIDs.push(...part.clientIDs)
    steps.push(...part.steps)
    if (part.version == part.length) return {doc, clientIDs, steps}
    assert.ok(part.steps.length > 0)
  }
}

const textsOf = steps => steps.flatMap(({slice}) => slice?.content?.flatMap(it => (it.text?.startsWith("[") ? [it.text] : [])) ?? [])

/** All editors are settled: that they and the servers have one document, and that each step is in the log once, in its editor's order. */
export async function agree(addresses, document, editors) {
  const log = await logOf(addresses[0], document), {steps, clientIDs} = log
  await Promise.all(editors.map(it => it.reaches(steps.length)))
  const doc = folded(log.doc, steps)
  for (const address of addresses) {
    const now = await read(address, document)
    assert.equal(now.version, steps.length)
    assert.ok(Node.fromJSON(schema, now.doc).eq(doc), "the server's document is the fold's")
    assert.deepEqual(await logOf(address, document), log)
  }
  for (const editor of editors) {
    const own = steps.filter((_, i) => clientIDs[i] == editor.clientID)
    assert.ok(Node.fromJSON(schema, editor.client.doc().doc).eq(doc), `the document of ${editor.user} is the fold's`)
    assert.equal(own.length, editor.confirmed, `the steps of ${editor.user} are as many as were confirmed`)
    const texts = textsOf(own)
    assert.deepEqual(texts, editor.texts.filter(it => texts.includes(it)), `the texts of ${editor.user} stand in order, once each`)
    editor.lost = editor.texts.length - texts.length
  }
  return log
}
