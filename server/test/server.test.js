// What editors have of a server: steps, entries, who is there, tokens, and how it ends.

import assert from "node:assert/strict"
import {after, before, test} from "node:test"
import {serve} from "./servers.js"
import {join, Talker, tokenFor} from "./talker.js"
import {until, within} from "./waiting.js"

let server
before(async () => { server = await serve() })
after(() => server.stop())

test("a document is made on first use, and steps go to all", async () => {
  const ann = await join(server.address, "first", "ann"), bob = await join(server.address, "first", "bob")
  assert.equal(ann.welcome.schemaName, "basic")
  assert.deepEqual(ann.welcome.doc, {type: "doc", content: [{type: "paragraph"}]})
  assert.match(ann.welcome.clientID, /^ann~/)
  assert.deepEqual(await ann.submit(0, "a"), {accepted: {count: 1, from: 0}})
  const {entries} = await bob.heard(it => it.op == "entries")
  assert.deepEqual(entries.clientIDs, [ann.welcome.clientID])
  assert.equal(entries.version, 1)
  assert.deepEqual(await bob.submit(0, "b"), {version: 1})
  assert.deepEqual(await bob.submit(1, "b"), {accepted: {count: 1, from: 1}})
  const told = await ann.heard(it => it.op == "entries")
  assert.equal(told.entries.version, 2)
  // Nobody is told its own steps again.
  assert.equal(ann.told.filter(it => it.op == "entries").length, 1)
  const carl = await join(server.address, "first", "carl")
  assert.equal(carl.welcome.version, 2)
  assert.equal(carl.welcome.doc.content[0].content[0].text, "ba")
  await Promise.all([ann, bob, carl].map(it => it.close()))
})

test("what does not apply is refused by the engine's answer", async () => {
  const ann = await join(server.address, "refusing", "ann")
  const answer = await ann.ask({op: "submit", version: 0, steps: [{stepType: "replace", from: 0, to: 2}]})
  assert.equal(answer.refused.index, 0)
  const fault = await ann.ask({op: "submit", version: 0, steps: [{stepType: "none"}]})
  assert.equal(fault.fault, 7)
  await ann.close()
})

test("who connects again goes on from its version under its ID", async () => {
  const ann = await join(server.address, "again", "ann"), bob = await join(server.address, "again", "bob")
  await ann.submit(0, "a")
  ann.kill()
  await bob.submit(1, "b", 2)
  const {ticket, epoch, clientID} = ann.welcome
  const back = await join(server.address, "again", "ann", {hello: {version: 0, epoch, ticket}})
  assert.equal(back.welcome.clientID, clientID)
  assert.equal(back.welcome.doc, undefined)
  const {entries} = await back.heard(it => it.op == "entries")
  assert.deepEqual(entries.clientIDs, [clientID, bob.welcome.clientID])
  const late = new Talker(server.address, "again", {token: tokenFor("ann")})
  await late.opened
  late.send({op: "hello", version: 7, epoch, ticket})
  assert.equal((await late.closed).code, 4410)
  // The newer connection of one client ends the older one.
  const newer = await join(server.address, "again", "ann", {hello: {version: 2, epoch, ticket}})
  assert.equal((await back.closed).code, 4409)
  await Promise.all([newer, bob].map(it => it.close()))
})

test("who is there, and where their cursors are", async () => {
  const ann = await join(server.address, "seen", "ann", {hello: {name: "Ann", color: "#123456"}})
  const bob = await join(server.address, "seen", "bob")
  assert.deepEqual(bob.welcome.present, [{op: "presence", clientID: ann.welcome.clientID, name: "Ann", color: "#123456"}])
  await ann.heard(it => it.op == "presence" && it.clientID == bob.welcome.clientID)
  for (let head = 0; head < 5; head++) ann.send({op: "presence", version: 0, anchor: 1, head})
  const told = await bob.heard(it => it.op == "presence" && it.head == 4)
  assert.deepEqual(told, {op: "presence", clientID: ann.welcome.clientID, name: "Ann", color: "#123456", version: 0, anchor: 1, head: 4})
  ann.send({op: "presence"})
  await bob.heard(it => it.op == "presence" && it.clientID == ann.welcome.clientID && it.head === undefined && bob.told.indexOf(it) > 1)
  await ann.close()
  await bob.heard(it => it.op == "left" && it.clientID == ann.welcome.clientID)
  await bob.close()
})

test("a token that ends closes the connection, and a newer one keeps it", async () => {
  const {ends, stays, expires} = await twoWithOneToken()
  assert.equal((await within(ends.closed, "the end")).code, 4401)
  await until(() => Date.now() > expires + 200, "the token has ended")
  assert.deepEqual(await stays.submit(0, "a"), {accepted: {count: 1, from: 0}})
  await stays.close()
})

// Two by one token that soon ends, of whom one gets a newer one before. A slow machine gets one that lasts longer.
async function twoWithOneToken(lasts = 2_000) {
  const expires = Date.now() + lasts, token = tokenFor("ann", {expires})
  const [ends, stays] = [1, 2].map(() => new Talker(server.address, "tokens", {token}))
  try {
    await Promise.all([ends.hello(), stays.hello()])
    stays.send({op: "token", token: tokenFor("bob")})
    await stays.heard(it => it.op == "error" && it.code == "token")
    stays.send({op: "token", token: tokenFor("ann")})
    await stays.heard(it => it.op == "token")
    return {ends, stays, expires}
  } catch (error) {
    if (lasts > 100_000) throw error
    return twoWithOneToken(2 * lasts)
  }
}

test("many entries come in parts, and the oldest from the store", async () => {
  const small = await serve({messageBytes: 3_000, entriesAtHand: 20, messageBurst: 2_000})
  const ann = await join(small.address, "parts", "ann")
  for (let version = 0; version < 100; version++) await ann.submit(version, "x".repeat(100))
  const bob = await join(small.address, "parts", "bob", {hello: {version: 0, epoch: ann.welcome.epoch}})
  await bob.heard(it => it.op == "entries" && it.entries.version == 100)
  const pushed = bob.told.filter(it => it.op == "entries").map(it => it.entries)
  assert.equal(pushed.reduce((sum, it) => sum + it.steps.length, 0), 100)
  assert.ok(pushed.length > 3)
  pushed.reduce((version, it) => (assert.equal(it.version - it.steps.length, version), it.version), 0)
  const part = await bob.ask({op: "since", version: 30})
  assert.ok(part.version < 100 && part.version - part.steps.length == 30)
  await Promise.all([ann, bob].map(it => it.close()))
  await small.stop()
})

test("by HTTP: health, metrics, documents and their logs", async () => {
  const ann = await join(server.address, "read", "ann")
  await ann.submit(0, "a")
  await ann.submit(1, "b")
  const get = async (path, token = tokenFor("eve", {documents: {read: "read"}})) => {
    const response = await fetch(server.address + path, {headers: {Authorization: `Bearer ${token}`}})
    const isJson = response.headers.get("content-type").startsWith("application/json")
    return [response.status, isJson ? await response.json() : await response.text()]
  }
  assert.deepEqual(await get("/health"), [200, {status: "ok"}])
  const [, metrics] = await get("/metrics")
  assert.match(metrics, /^gezhufet_steps_accepted_total \d+$/m)
  assert.match(metrics, /^# TYPE gezhufet_submission_seconds histogram$/m)
  const [, {doc, version}] = await get("/documents/read")
  assert.equal(doc.content[0].content[0].text, "ba")
  assert.equal(version, 2)
  const [, first] = await get("/documents/read/first")
  assert.deepEqual(first.doc, {type: "doc", content: [{type: "paragraph"}]})
  const [, entries] = await get("/documents/read/entries?from=1&to=2")
  assert.deepEqual([entries.from, entries.version, entries.length, entries.steps.length], [1, 2, 2, 1])
  assert.deepEqual((await get("/documents/read/comments"))[1], {comments: []})
  assert.equal((await get("/documents/other"))[0], 403)
  assert.equal((await get("/documents/missing", tokenFor("ann")))[0], 404)
  assert.equal((await get("/documents/read", "no.token"))[0], 401)
  assert.equal((await get("/nothing"))[0], 404)
  assert.equal((await fetch(`${server.address}/token`, {method: "POST"})).status, 403)
  await ann.close()
})

test("a stop answers all that was taken, and says goodbye", async () => {
  const other = await serve(), ann = await join(other.address, "stopping", "ann")
  const bytes = () => Number(/^gezhufet_received_bytes_total (\d+)$/m.exec(other.counts.metrics.text())[1])
  const before = bytes()
  await ann.submit(0, "a")
  const size = bytes() - before, answers = [1, 2, 3].map(version => ann.submit(version, "a"))
  await until(() => bytes() == before + 4 * size, "all have come")
  const stopped = other.stop()
  const settled = await Promise.allSettled(answers)
  assert.deepEqual(settled.map(it => it.status), ["fulfilled", "fulfilled", "fulfilled"])
  await ann.heard(it => it.op == "bye")
  assert.equal((await ann.closed).code, 1012)
  await stopped
  await assert.rejects(fetch(`${other.address}/health`))
})

test("what is left is let go: documents and users", async () => {
  await until(() => server.documents.size == 0, "all documents are let go")
  assert.equal(server.users.connections, 0)
})

