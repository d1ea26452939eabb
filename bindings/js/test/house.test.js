// The house of many documents in this process, over the addon, and that the module has none.

import assert from "node:assert/strict"
import {describe, it} from "node:test"
import {
  EndedError, FaultError, ForgottenError, GezhufetError, LackError, RefusedError, VersionError, openClient, openEngine, openHouse,
} from "../src/index.js"
import {docJSON, engines, insertion, proseMirror, schemaJSON} from "./values.js"

const deletion = (from, to) => ({stepType: "replace", from, to})
const textOf = ({doc}) => doc.content.flatMap(it => it.content ?? []).map(it => it.text).join("")

// What a call throws, by the class and what it has.
const throws = (call, error, has) => assert.throws(call, it => {
  assert.ok(it instanceof error && it instanceof GezhufetError, `${it}`)
  assert.equal(it.name, error.name)
  for (const key of Object.keys(has)) assert.equal(it[key], has[key], key)
  return true
})

describe("the module", {skip: !engines.includes("wasm") && "gezhufet.wasm is not built"}, () => {
  it("has no house", async () => {
    const engine = await openEngine({kind: "wasm"}), has = {message: "the WebAssembly module has no house; the addon has one"}
    throws(() => engine.openHouse(), GezhufetError, has)
    for (const options of [{engine}, {kind: "wasm"}]) await assert.rejects(openHouse(options), has)
    assert.equal(engine.openAuthority(schemaJSON, docJSON).version, 0)
  })
})

describe("the house", {skip: !engines.includes("addon") && "the addon is not built (bindings/js/addon/build.sh)"}, () => {
  // A house with one document, whose log begins at version 5.
  const opened = async () => {
    const house = await openHouse()
    house.nameSchema("plain", schemaJSON)
    return {house, notes: house.open("notes", "plain", docJSON, 5)}
  }

  it("begins without schemas and documents", async () => {
    const house = await openHouse()
    assert.equal(house.engine.kind, "addon")
    assert.deepEqual(house.documents(), [])
    assert.deepEqual(house.statistics(), {documents: 0, entries: 0, schemas: 0, tokens: 0})
    throws(() => house.document("notes").doc(), LackError, {what: "document"})
    throws(() => house.open("notes", "plain"), LackError, {what: "schema"})
  })

  it("gives a schema one name", async () => {
    const {house} = await opened()
    house.nameSchema("plain", JSON.stringify(schemaJSON))
    throws(() => house.nameSchema("plain", {nodes: [{name: "doc", content: "text*"}, {name: "text"}]}), FaultError, {code: 23})
    throws(() => house.nameSchema("no name", schemaJSON), FaultError, {code: 23})
    throws(() => house.nameSchema("odd", {}), FaultError, {code: 6, line: undefined})
    throws(() => house.nameSchema("odd", "no JSON"), FaultError, {code: 5})
    throws(() => house.nameSchema(undefined, schemaJSON), FaultError, {code: 6})
    assert.equal(house.statistics().schemas, 1)
  })

  it("opens and closes documents", async () => {
    const {house, notes} = await opened()
    throws(() => house.open("notes", "plain"), LackError, {what: "closed"})
    throws(() => house.open("", "plain"), FaultError, {code: 23})
    throws(() => house.open("plan", "plain", {type: "paragraph"}), FaultError, {code: 16})
    const plan = house.open("plan", "plain")
    assert.deepEqual(plan.doc(), {doc: {type: "doc", content: [{type: "paragraph"}]}, version: 0})
    const listed = {from: 0, in: "plan", schema: "plain", size: 2, version: 0}
    assert.deepEqual(house.documents(), [{from: 5, in: "notes", schema: "plain", size: 4, version: 5}, listed])
    notes.close()
    throws(() => notes.close(), LackError, {what: "document"})
    assert.deepEqual(house.documents(), [listed])
    house.open("notes", "plain", docJSON)
    assert.deepEqual([notes.name, notes.version], ["notes", 0])
  })

  it("keeps documents apart", async () => {
    const {house, notes} = await opened()
    const other = house.open("other", "plain", docJSON)
    const steps = [insertion(1, "x"), insertion(2, "y")]
    assert.deepEqual(notes.submit({version: 5, steps, clientID: "ann"}), {accepted: true, version: 7})
    assert.deepEqual(other.submit({version: 0, steps: [insertion(3, "z")], clientID: "ann"}), {accepted: true, version: 1})
    assert.deepEqual(other.submit({version: 0, steps: [], clientID: 7}), {accepted: false, version: 1})
    assert.deepEqual([notes, other].map(it => textOf(it.doc())), ["xyab", "abz"])
    assert.deepEqual(other.since(), {steps: [insertion(3, "z")], clientIDs: ["ann"], version: 1})
    assert.deepEqual(notes.since(5, 1), {steps: [insertion(1, "x")], clientIDs: ["ann"], version: 6})
  })

  it("refuses a step that does not apply, and takes none of those with it", async () => {
    const {notes} = await opened()
    const submit = (steps, version = 5) => () => notes.submit({version, steps, clientID: 1})
    throws(submit([insertion(1, "x"), deletion(0, 5)]), RefusedError, {reason: 9, index: 1, at: 0})
    throws(submit([{stepType: "nothing"}]), FaultError, {code: 7})
    throws(submit([], 0.5), FaultError, {code: 6})
    assert.deepEqual(notes.doc(), {doc: docJSON, version: 5})
  })

  it("tells earlier documents, and lets them go", async () => {
    const {house, notes} = await opened()
    notes.submit({version: 5, steps: [insertion(1, "x"), insertion(2, "y")], clientID: "ann"})
    assert.deepEqual([5, 6, 7].map(it => textOf(notes.doc(it))), ["ab", "xab", "xyab"])
    throws(() => notes.doc(8), VersionError, {version: 7})
    throws(() => notes.doc(4), ForgottenError, {from: 5})
    throws(() => notes.forget(8), VersionError, {version: 7})
    assert.equal(notes.forget(6), 6)
    assert.equal(notes.forget(5), 6)
    for (const call of [() => notes.since(5), () => notes.doc(5), () => notes.authors(5)]) throws(call, ForgottenError, {from: 6})
    assert.deepEqual(notes.since(6).steps, [insertion(2, "y")])
    assert.deepEqual(house.statistics(), {documents: 1, entries: 1, schemas: 1, tokens: 6})
  })

  it("maps positions", async () => {
    const {notes} = await opened()
    notes.submit({version: 5, steps: [insertion(2, "xy"), deletion(4, 5)], clientID: "ann"})
    const mapped = notes.map(5, 7, [[1, 1], [2, -1], [2, 1], [3, -1]])
    assert.deepEqual(mapped, [[1, false], [2, false], [4, true], [4, true]].map(([pos, deleted]) => ({pos, deleted})))
    throws(() => notes.map(5, 7, [[5, 1]]), LackError, {what: "range"})
    throws(() => notes.map(7, 5, []), LackError, {what: "range"})
    throws(() => notes.map(5, 8, []), VersionError, {version: 7})
    throws(() => notes.map(4, 7, []), ForgottenError, {from: 5})
  })

  it("tells who put tokens in", async () => {
    const {notes} = await opened()
    notes.submit({version: 5, steps: [insertion(1, "xy")], clientID: "ann"})
    notes.submit({version: 6, steps: [insertion(2, "z")], clientID: 7})
    const [ann, seven] = [{clientID: "ann", size: 1, version: 6}, {clientID: 7, size: 1, version: 7}]
    assert.deepEqual(notes.authors(5), [{size: 1}, ann, seven, ann, {size: 3}])
    throws(() => notes.authors(8), VersionError, {version: 7})
  })

  it("takes steps back", async () => {
    const {notes} = await opened()
    notes.submit({version: 5, steps: [insertion(1, "xy")], clientID: "ann"})
    notes.submit({version: 6, steps: [insertion(5, "z")], clientID: "bob"})
    assert.deepEqual(notes.revert({clientID: "eve", from: 5, count: 1}), {version: 7, steps: [deletion(1, 3)], apart: true})
    assert.equal(textOf(notes.doc()), "abz")
    throws(() => notes.revert({clientID: "eve", from: 5, count: 4}), VersionError, {version: 8})
  })

  it("makes edits of its own", async () => {
    const {notes} = await opened()
    assert.deepEqual(notes.edit("bot", {op: "text", from: 1, to: 1, text: "x"}), {version: 5, step: insertion(1, "x")})
    assert.deepEqual(notes.edit("bot", {op: "text", from: 9, to: 9, text: "x"}), {none: "range"})
    assert.deepEqual(notes.edit("bot", {op: "lift", pos: 1}), {none: "place"})
    throws(() => notes.edit("bot", {op: "step", step: deletion(0, 5)}), RefusedError, {reason: 9, index: 0})
    throws(() => notes.edit("bot", {op: "nothing"}), FaultError, {code: 7})
    assert.equal(notes.version, 6)
  })

  it("answers messages and lines", async () => {
    const {house, notes} = await opened()
    assert.deepEqual(house.ask({op: "nothing"}), {fault: 7})
    assert.equal(house.tell("no JSON"), '{"fault":5}')
    assert.deepEqual(notes.ask({op: "since", version: 5}), house.ask({op: "since", in: "notes", version: 5}))
    assert.deepEqual(house.document("none").ask({op: "doc"}), {none: "document"})
    const line = '{"op":"since","in":"notes","version":5}'
    assert.equal(house.tell(line + " ".repeat(1048576 - line.length)), '{"clientIDs":[],"steps":[],"version":5}')
    assert.equal(house.tell(line + " ".repeat(1048577 - line.length)), '{"fault":3}')
  })

  it("has clients of a document", async () => {
    const {notes} = await opened()
    const client = await openClient({schema: schemaJSON, ...notes.doc(), clientID: "ann"})
    client.edit({op: "text", from: 1, to: 1, text: "x"})
    assert.deepEqual(client.take(notes.ask(client.compose())), {confirmed: 1, version: 6})
    assert.deepEqual(notes.doc(), client.doc())
  })

  it("is closed for good", async () => {
    const {house, notes} = await opened()
    house.close()
    house.close()
    for (const call of [() => house.documents(), () => notes.doc(), () => house.open("a", "plain")]) throws(call, EndedError, {})
  })

  it("stands in an engine beside others", async () => {
    const engine = await openEngine({kind: "addon"})
    const houses = [engine.openHouse(), await openHouse({engine})]
    houses.forEach((it, i) => it.nameSchema(`schema-${i}`, schemaJSON))
    const authority = engine.openAuthority(schemaJSON, docJSON)
    houses.forEach((it, i) => it.open("a", `schema-${i}`, docJSON).submit({version: 0, steps: [insertion(1, `${i} `)], clientID: 1}))
    assert.deepEqual(houses.map(it => textOf(it.document("a").doc())), ["0 ab", "1 ab"])
    assert.deepEqual(authority.doc(), {doc: docJSON, version: 0})
    houses[0].close()
    assert.equal(houses[1].document("a").version, 1)
  })

  it("takes and gives ProseMirror's own values", {skip: !proseMirror() && "ProseMirror's packages are missing"}, async () => {
    const {Node, Schema, Step, Transform} = proseMirror()
    const schema = new Schema({nodes: {doc: {content: "paragraph+"}, paragraph: {content: "text*"}, text: {}}})
    const doc = schema.node("doc", null, [schema.node("paragraph", null, [schema.text("ab")])])
    const tr = new Transform(doc).insert(1, schema.text("x")).delete(2, 3)
    const house = await openHouse({Step})
    house.nameSchema("plain", schema)
    const notes = house.open("notes", "plain", doc)
    assert.deepEqual(notes.submit({version: 0, steps: tr.steps, clientID: "ann"}), {accepted: true, version: 2})
    const isSame = (told, wanted) => assert.ok(told.doc instanceof Node && told.doc.eq(wanted))
    isSame(notes.doc(), tr.doc)
    isSame(notes.doc(0), doc)
    const {steps} = notes.since()
    assert.ok(steps.every(it => it instanceof Step))
    assert.ok(steps.reduce((it, step) => step.apply(it).doc, doc).eq(tr.doc))
    const back = notes.revert({clientID: "eve", from: 0, count: 2}).steps
    isSame(notes.doc(), back.reduce((it, step) => step.apply(it).doc, tr.doc))
    assert.ok(notes.edit("bot", {op: "text", from: 1, to: 1, text: "y"}).step instanceof Step)
    // It knows the schema of a document that a line opened, too.
    notes.close()
    house.tell(JSON.stringify({op: "open", in: "notes", schema: "plain", doc: doc.toJSON()}))
    isSame(house.document("notes").doc(), doc)
  })
})
