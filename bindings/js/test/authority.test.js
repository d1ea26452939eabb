// The authority in this process, over each engine that was built.

import assert from "node:assert/strict"
import {describe, it} from "node:test"
import {EndedError, FaultError, GezhufetError, RefusedError, openAuthority, openEngine} from "../src/index.js"
import {docJSON, engines, insertion, proseMirror, schemaJSON} from "./values.js"

if (engines.length == 0) console.log("# skipped: neither gezhufet.wasm nor the addon is built (./pm wasm builds the one)")

for (const kind of engines) describe(`the authority over ${kind}`, () => {
  const opened = (doc = docJSON, options = {}) => openAuthority(schemaJSON, doc, {kind, ...options})

  it("keeps the document and the log", async () => {
    const authority = await opened()
    assert.equal(authority.version, 0)
    assert.deepEqual(authority.submit({version: 0, steps: [insertion(1, "x")], clientID: "ann"}), {accepted: true, version: 1})
    assert.deepEqual(authority.submit({version: 0, steps: [], clientID: 7}), {accepted: false, version: 1})
    assert.equal(authority.version, 1)
    const {steps, clientIDs, version} = authority.since()
    assert.deepEqual([steps, clientIDs, version], [[{...insertion(1, "x"), stepType: "replace"}], ["ann"], 1])
    assert.deepEqual(authority.since(1), {steps: [], clientIDs: [], version: 1})
    assert.deepEqual(authority.since(0, 0), {steps: [], clientIDs: [], version: 0})
    assert.equal(authority.since(0, 1).version, 1)
    assert.deepEqual(authority.doc(), {
      doc: {type: "doc", content: [{type: "paragraph", content: [{type: "text", text: "xab"}]}]},
      version: 1,
    })
  })

  it("fills the top type where there is no document", async () => {
    assert.deepEqual((await opened(null)).doc(), {doc: {type: "doc", content: [{type: "paragraph"}]}, version: 0})
  })

  it("refuses a step that does not apply, and takes none of those with it", async () => {
    const authority = await opened()
    const steps = [insertion(1, "x"), {stepType: "replace", from: 0, to: 5}]
    assert.throws(() => authority.submit({version: 0, steps, clientID: 1}), error => {
      assert.ok(error instanceof RefusedError && error instanceof GezhufetError)
      assert.deepEqual([error.name, error.reason, error.index, error.at], ["RefusedError", 9, 1, 0])
      return true
    })
    assert.deepEqual(authority.doc(), {doc: docJSON, version: 0})
  })

  it("tells the code of a fault", async () => {
    const authority = await opened()
    const fails = (call, code, line) =>
      assert.throws(call, error => error instanceof FaultError && error.code == code && error.line == line)
    fails(() => authority.submit({version: 0, steps: [{stepType: "nothing"}], clientID: 1}), 7)
    fails(() => authority.submit({version: 0.5, steps: [], clientID: 1}), 6)
    fails(() => authority.submit({version: 0, steps: [], clientID: "x".repeat(1023)}), 19)
    fails(() => authority.since(-1), 6)
    fails(() => authority.since(0, -1), 6)
    assert.deepEqual(authority.ask({op: "nothing"}), {fault: 7})
    assert.equal(authority.tell("no JSON"), '{"fault":5}')
    assert.equal(authority.tell(""), '{"fault":5}')
    await assert.rejects(openAuthority({}, null, {kind}), {name: "FaultError", code: 6, line: 1})
    await assert.rejects(opened({type: "paragraph"}), {name: "FaultError", code: 16, line: 2})
  })

  it("reads lines up to their limit", async () => {
    const authority = await opened()
    const line = '{"op":"since","version":0}'
    assert.equal(authority.tell(line + " ".repeat(1048576 - line.length)), '{"clientIDs":[],"steps":[],"version":0}')
    for (const longer of [" ", "é", "𝄞", " ".repeat(3000000)])
      assert.equal(authority.tell(line + " ".repeat(1048576 - line.length) + longer), '{"fault":3}')
  })

  it("carries text of every kind", async () => {
    const authority = await opened()
    const text = "é ü 漢字 𝄞 \u0000 \u001f \" \\ \u2028 \ud7ff \uffff"
    authority.submit({version: 0, steps: [insertion(1, text)], clientID: text})
    assert.equal(authority.since().steps[0].slice.content[0].text, text)
    assert.deepEqual(authority.since().clientIDs, [text])
    assert.deepEqual(authority.ask({op: "submit", version: 1, clientID: 1, steps: [insertion(1, "\ud800")]}), {fault: 5})
  })

  it("answers long texts", async () => {
    const authority = await opened()
    const text = "漢".repeat(100000)
    for (let i = 0; i < 4; i++) authority.submit({version: i, steps: [insertion(1, text)], clientID: 1})
    assert.equal(authority.doc().doc.content[0].content[0].text, text.repeat(4) + "ab")
  })

  it("is closed for good", async () => {
    const authority = await opened()
    authority.close()
    authority.close()
    for (const call of ["doc", "since"]) assert.throws(() => authority[call](), EndedError)
  })

  it("holds many documents in one engine", async () => {
    const engine = await openEngine({kind})
    const authorities = Array.from({length: 50}, () => engine.openAuthority(schemaJSON, docJSON))
    authorities.forEach((it, i) => it.submit({version: 0, steps: [insertion(1, `${i} `)], clientID: i}))
    authorities.forEach((it, i) => assert.equal(it.doc().doc.content[0].content[0].text, `${i} ab`))
    authorities.filter((_, i) => i % 2).forEach(it => it.close())
    assert.equal(authorities[0].doc().version, 1)
    assert.equal((await openAuthority(schemaJSON, docJSON, {engine})).doc().version, 0)
  })

  it("takes and gives ProseMirror's own values", {skip: !proseMirror() && "ProseMirror's packages are missing"}, async () => {
    const {Node, Schema, Step, Transform} = proseMirror()
    const schema = new Schema({nodes: {doc: {content: "paragraph+"}, paragraph: {content: "text*"}, text: {}}})
    const doc = schema.node("doc", null, [schema.node("paragraph", null, [schema.text("ab")])])
    const tr = new Transform(doc).insert(1, schema.text("x")).delete(2, 3)
    const authority = await openAuthority(schema, doc, {kind, Step})
    assert.deepEqual(authority.submit({version: 0, steps: tr.steps, clientID: "ann"}), {accepted: true, version: 2})
    const now = authority.doc()
    assert.ok(now.doc instanceof Node && now.doc.eq(tr.doc))
    const {steps} = authority.since()
    assert.ok(steps.every(it => it instanceof Step))
    assert.ok(steps.reduce((it, step) => step.apply(it).doc, doc).eq(tr.doc))
  })
})
