// The client in this process, over each engine that was built.

import assert from "node:assert/strict"
import {describe, it} from "node:test"
import {EndedError, FaultError, RefusedError, openAuthority, openClient, openEngine} from "../src/index.js"
import {docJSON, engines, insertion, proseMirror, schemaJSON} from "./values.js"

const textOf = ({doc}) => doc.content.map(({content = []}) => content.map(it => it.text).join("")).join("|")
const entries = (version, ...steps) => ({clientIDs: steps.map(() => "bob"), steps, version})

for (const kind of engines) describe(`the client over ${kind}`, () => {
  const opened = (options = {}) => openClient({schema: schemaJSON, doc: docJSON, clientID: "ann", ...options}, {kind})
  const typed = (client, at, text, event) => client.edit({op: "text", from: at, to: at, text, event})

  it("is opened at a version", async () => {
    const client = await opened({version: 7, clientID: 12})
    assert.deepEqual(client.state(), {clientID: 12, cursors: [], pending: 0, redo: 0, size: 4, undo: 0, version: 7})
    assert.deepEqual(client.doc(), {doc: docJSON, version: 7})
    assert.deepEqual(client.ask(), {op: "since", version: 7})
    assert.deepEqual(client.compose(), {clientID: 12, op: "submit", steps: [], version: 7})
  })

  it("makes edits", async () => {
    const client = await opened()
    assert.deepEqual(typed(client, 1, "x"), {made: 1, serial: 1, steps: [insertion(1, "x")]})
    assert.deepEqual(client.step(insertion(2, "y")), {made: 1, serial: 2, steps: [insertion(2, "y")]})
    assert.equal(textOf(client.doc()), "xyab")
    assert.deepEqual(client.edit({op: "delete", from: 1, to: 9}), {none: "range"})
    assert.deepEqual(client.edit({op: "delete", from: 1, to: 1}), {none: "place"})
    assert.deepEqual(client.edit({op: "insert", pos: 2, node: {type: "doc"}}), {none: "fit"})
    assert.throws(() => client.step({stepType: "replace", from: 0, to: 6}), error => {
      assert.ok(error instanceof RefusedError)
      assert.deepEqual([error.reason, error.index, error.at], [9, 0, 0])
      return true
    })
    assert.throws(() => client.step({stepType: "replace", from: 2, to: 1}), {name: "RefusedError", reason: 1, at: undefined})
    assert.equal(client.state().pending, 2)
  })

  it("says what an edit would give", async () => {
    const client = await opened()
    assert.deepEqual(client.can({op: "split", pos: 2}).made, 1)
    assert.equal(client.can({op: "split", pos: 2}).serial, undefined)
    assert.deepEqual(client.can({op: "join", pos: 2}), {none: "place"})
    assert.deepEqual(client.can({op: "step", step: {stepType: "replace", from: 0, to: 4}}), {refused: {at: 0, reason: 9}})
    assert.throws(() => client.can({op: "undo"}), FaultError)
    assert.equal(client.state().pending, 0)
  })

  it("undoes, and one event by its number", async () => {
    const client = await opened()
    typed(client, 1, "x", 1)
    typed(client, 2, "y", 1)
    typed(client, 5, "z", 2)
    assert.deepEqual(client.undoEvent(3), {none: "event"})
    const {made, serials, steps} = client.undoEvent(1)
    assert.deepEqual([made, serials], [2, [4, 5]])
    assert.deepEqual(steps, [{stepType: "replace", from: 2, to: 3}, {stepType: "replace", from: 1, to: 2}])
    assert.equal(textOf(client.doc()), "abz")
    assert.equal(client.redo().made, 2)
    assert.equal(client.undo().made, 2)
    assert.equal(client.undo().made, 1)
    assert.deepEqual(client.undo(), {none: "event"})
    assert.equal(textOf(client.doc()), "ab")
    assert.deepEqual([client.state().undo, client.state().redo], [0, 2])
  })

  it("keeps cursors", async () => {
    const client = await opened()
    assert.deepEqual(client.cursor(2), {cursor: 0, pos: 2})
    assert.deepEqual(client.cursor(2, -1), {cursor: 1, pos: 2})
    assert.deepEqual(client.cursor(9), {none: "range"})
    typed(client, 2, "x")
    assert.deepEqual(client.state().cursors, [3, 2])
  })

  it("takes what the authority answers", async () => {
    const client = await opened()
    typed(client, 1, "x")
    typed(client, 2, "y")
    assert.deepEqual(client.compose().steps.length, 2)
    assert.deepEqual(client.take({version: 3}), {kept: 2})
    assert.deepEqual(client.take({accepted: {count: 1, from: 0}}), {confirmed: 1, version: 1})
    assert.deepEqual(client.take({accepted: {count: 1, from: 0}}), {stale: 1})
    assert.deepEqual(client.take({accepted: {count: 1, from: 4}}), {gap: 1})
    assert.deepEqual(client.take(entries(9, insertion(1, "b"))), {gap: 1})
    const took = client.take(JSON.stringify(entries(2, insertion(4, "b"))))
    assert.deepEqual(took, {
      back: 1, confirmed: 0, cursors: [], dropped: [], foreign: 1, pairs: [[0, 2]], version: 2,
      steps: [{stepType: "replace", from: 2, to: 3}, insertion(4, "b"), insertion(2, "y")],
    })
    assert.deepEqual(client.take(entries(2, insertion(4, "b"))), {stale: 2})
    assert.equal(textOf(client.doc()), "xyabb")
    assert.throws(() => client.take(entries(3, {stepType: "replace", from: 90, to: 91})), {name: "RefusedError", index: 0, reason: 1})
    assert.throws(() => client.take({}), FaultError)
  })

  it("comes to the authority's document", async () => {
    const engine = await openEngine({kind}), authority = engine.openAuthority(schemaJSON, docJSON)
    const [ann, bob] = ["ann", "bob"].map(clientID => engine.openClient({schema: schemaJSON, doc: docJSON, clientID}))
    const exchange = client => {
      const answer = authority.ask(client.compose())
      client.take(answer)
      if (answer.version !== undefined) client.take(authority.ask(client.ask()))
    }
    for (let i = 0; i < 20; i++) {
      typed(ann, 1 + i, "a", i)
      typed(bob, 1, "b", i)
      if (i % 3 == 0) exchange(ann)
      if (i % 4 == 0) exchange(bob)
      if (i % 5 == 4) bob.undoEvent(i - 2)
    }
    for (let i = 0; i < 4; i++) for (const client of [ann, bob]) exchange(client)
    const {doc, version} = authority.doc()
    for (const client of [ann, bob]) assert.deepEqual(client.doc(), {doc, version})
  })

  it("cuts what is longer than a line", async () => {
    const client = await opened(), text = "a".repeat(400000), removal = {stepType: "replace", from: 1, to: 1 + text.length}
    const steps = [insertion(1, text), removal, insertion(1, text), removal, insertion(1, text)]
    for (const step of steps) client.step(step)
    assert.deepEqual(client.compose().steps, steps.slice(0, 4))
    const long = entries(5, ...steps), other = await opened()
    assert.throws(() => other.take(long), {name: "FaultError", code: 3})
    const parts = other.parts(long)
    assert.deepEqual(parts.map(part => [part.steps.length, part.clientIDs.length, part.version]), [[4, 4, 4], [1, 1, 5]])
    for (const part of parts) other.take(part)
    assert.deepEqual([other.state().version, other.state().size], [5, 400004])
    assert.deepEqual(other.parts({version: 1}), [{version: 1}])
  })

  it("tells the code of a fault, and of which line it is", async () => {
    const client = await opened()
    assert.throws(() => client.edit({op: "nothing"}), {name: "FaultError", code: 7, line: undefined})
    assert.equal(client.tell("no JSON"), '{"fault":5}')
    const fails = (options, code, line) => assert.rejects(opened(options), {name: "FaultError", code, line})
    await fails({schema: {}}, 6, 1)
    await fails({doc: {type: "paragraph"}}, 16, 2)
    await fails({clientID: 1.5}, 6, 3)
    await fails({clientID: undefined}, 6, 3)
    await fails({version: -1}, 6, 3)
  })

  it("is closed for good", async () => {
    const client = await opened()
    client.close()
    client.close()
    for (const call of ["doc", "state", "compose", "undo"]) assert.throws(() => client[call](), EndedError)
  })

  it("takes and gives ProseMirror's own values", {skip: !proseMirror() && "ProseMirror's packages are missing"}, async () => {
    const {Node, Schema, Step, Transform} = proseMirror()
    const schema = new Schema({nodes: {doc: {content: "paragraph+"}, paragraph: {content: "text*"}, text: {}}})
    const doc = schema.node("doc", null, [schema.node("paragraph", null, [schema.text("ab")])])
    const tr = new Transform(doc).insert(1, schema.text("x")).delete(2, 3)
    const authority = await openAuthority(schema, doc, {kind, Step})
    authority.submit({version: 0, steps: tr.steps, clientID: "bob"})
    const client = await openClient({schema, doc, clientID: "ann"}, {kind, Step})
    assert.ok(client.step(new Transform(doc).insert(3, schema.text("y")).steps[0]).steps[0] instanceof Step)
    const {steps} = client.take(authority.since())
    assert.ok(steps.every(it => it instanceof Step))
    const now = client.doc()
    assert.ok(now.doc instanceof Node && now.doc.textContent == "xby" && now.version == 2)
    assert.equal(client.edit({op: "settype", pos: 0, type: schema.nodes.paragraph}).made, 1)
    assert.equal(client.edit({op: "paste", from: 1, to: 1, slice: doc.slice(1, 2)}).made, 1)
    assert.equal(client.edit({op: "insert", pos: 0, node: schema.node("paragraph")}).made, 1)
  })
})
