// What is wrong in what comes, kind by kind: each is refused and told, and the document stays as it was.

import assert from "node:assert/strict"
import net from "node:net"
import {after, before, test} from "node:test"
import {signToken} from "../tokens.js"
import {newFolder, serve, skipsFiles} from "./servers.js"
import {inserted, join, SECRET, Talker, tokenFor} from "./talker.js"
import {within} from "./waiting.js"

// (over a house the lines of all documents go one way)
const STORES = {memory: false, house: skipsFiles}

const servers = {}
let server
before(async () => {
  const limits = {connectionsPerUser: 8, documentsPerUser: 3, newDocumentsPerHour: 40, comments: 2}
  for (const [store, skip] of Object.entries(STORES))
    if (!skip) servers[store] = await serve({store, folder: newFolder(), messageBytes: 20_000, ...limits})
  server = servers.memory
})
after(() => Promise.all(Object.values(servers).map(it => it.stop())))

const HOUR = 3_600_000
const deep = `${"[".repeat(9_000)}${"]".repeat(9_000)}`

/** A token with one letter of what it claims, or of its seal, changed. */
const changed = (token, part) =>
  token.split(".").map((it, i) => (i == part ? `${it.slice(0, -2)}${it.at(-2) == "A" ? "B" : "A"}${it.at(-1)}` : it)).join(".")

const claims = () => JSON.stringify({user: "ann", documents: {"*": "write"}, expires: Date.now() + HOUR})
const forged = () => `${Buffer.from(claims()).toString("base64url")}.AAAA`

// ---- what comes before the welcome: [what, how it connects or says hello, the code that is told, the close]

const ENTRIES = [
  ["no token", {token: null}, "token", 4401],
  ["a token that is none", {token: "nothing"}, "token", 4401],
  ["a token with other claims", {token: changed(tokenFor("ann"), 0)}, "token", 4401],
  ["a token with another seal", {token: changed(tokenFor("ann"), 1)}, "token", 4401],
  ["a token that nobody signed", {token: forged()}, "token", 4401],
  ["a token by another secret", {token: tokenFor("ann", {secret: "another secret of sixteen"})}, "token", 4401],
  ["a token that has expired", {token: tokenFor("ann", {expires: Date.now() - 1})}, "token", 4401],
  ["a token of other documents", {token: tokenFor("ann", {documents: {other: "write"}})}, "access", 4403],
  ["a right that there is not", {token: tokenFor("ann", {documents: {"*": "own"}})}, "access", 4403],
  ["a name that is none", {document: "a%2e%2e"}, "document", 4404],
  ["a document that is not there, to read", {document: "missing", token: tokenFor("eve", {documents: {"*": "read"}})}, "document", 4404],
  ["a schema that there is not", {query: "?schema=none", document: "schemaless"}, "schema", 4404],
  ["a schema that is a path", {query: "?schema=../package", document: "schemaless"}, "schema", 4404],
  ["a first message that is no hello", {first: {op: "submit", id: 1, version: 0, steps: []}}, "hello", 4400],
  ["a hello with a version that is none", {first: {op: "hello", version: -1}}, "hello", 4400],
  ["a hello with a version that no log has", {first: {op: "hello", version: 2 ** 40}}, "hello", 4400],
  ["a ticket that is none", {first: {op: "hello", version: 0, ticket: "x.y"}}, "ticket", 4401],
  ["a ticket of another user", {first: {op: "hello", version: 0, ticket: "eve"}}, "ticket", 4401],
  ["a ticket of another document", {first: {op: "hello", version: 0, ticket: "other"}}, "ticket", 4401],
  ["a version past the log", {first: {op: "hello", version: 1000}}, "version", 4410],
  ["a version without its epoch", {first: {op: "hello", version: 0}}, "epoch", 4410],
  ["an epoch of another log", {first: {op: "hello", version: 0, epoch: "x".repeat(12)}}, "epoch", 4410],
]

for (const [what, {token = tokenFor("ann"), document = "faulty", query, first = {op: "hello"}}, code, closes] of ENTRIES)
  test(`refused at the door: ${what}`, async () => {
    const tickets = {}
    if (first?.ticket == "eve") tickets.eve = await join(server.address, document, "eve")
    if (first?.ticket == "other") tickets.other = await join(server.address, "another", "ann")
    const talker = new Talker(server.address, document, {token, query})
    await talker.opened
    if (first) talker.send({...first, ...(tickets[first.ticket] && {ticket: tickets[first.ticket].welcome.ticket})})
    const ended = await within(talker.closed, "the end")
    assert.deepEqual([talker.errors.map(it => it.code), ended.code], [[code], closes])
    assert.ok(talker.errors[0].message.length > 10)
    assert.equal(talker.told.some(it => it.op == "welcome"), false)
    for (const it of Object.values(tickets)) await it.close()
  })

// ---- what comes after it: [what, what is sent, the code that is told, the close where there is one]

const steps = [inserted("x")]
const nested = JSON.parse(`${"[".repeat(200)}${"]".repeat(200)}`)
const stranger = {stepType: "replace", from: 0, to: 0, slice: {content: [{type: "own"}]}}
const [outside, apart] = [{stepType: "replace", from: 90, to: 91}, {stepType: "replace", from: 0, to: 2}]

const FAULTS = [
  ["no JSON", "{", "json"],
  ["JSON that is no object", "[1]", "json"],
  ["JSON that nests too deep", `{"op":"submit","id":1,"version":0,"steps":${deep}}`, "json"],
  ["JSON that nests deeper than the engine reads", {op: "submit", id: 1, version: 0, steps: [nested]}, "fault 5"],
  ["bytes", Buffer.from([0, 255, 1]), "json"],
  ["an op that there is not", {op: "own", id: 1}, "op"],
  ["an op that objects have", {op: "constructor", id: 1}, "op"],
  ["a message without an id", {op: "submit", version: 0, steps}, "op"],
  ["an id that is none", {op: "submit", id: -1, version: 0, steps}, "op"],
  ["a version that is none", {op: "submit", id: 1, version: 0.5, steps}, "op"],
  ["a version that no log has", {op: "submit", id: 1, version: 2 ** 40, steps}, "fault 6"],
  ["steps that are none", {op: "submit", id: 1, version: 0, steps: "all"}, "op"],
  ["a forged client's ID", {op: "submit", id: 1, version: 0, clientID: "bob~1", steps}, "client-id"],
  ["a message of another document", {op: "submit", id: 1, document: "other", version: 0, steps}, "document"],
  ["a kind of step that there is not", {op: "submit", id: 1, version: 0, steps: [{stepType: "own"}]}, "fault 7"],
  ["a node that the schema has not", {op: "submit", id: 1, version: 0, steps: [inserted("x"), stranger]}, "fault 7"],
  ["a step that does not apply", {op: "submit", id: 1, version: 0, steps: [apart]}, "refused 9"],
  ["steps of which the last does not apply", {op: "submit", id: 1, version: 0, steps: [...steps, outside]}, "refused 1"],
  ["a cursor that is none", {op: "presence", version: 0, anchor: "a", head: 1}, "op"],
  ["a comment without places", {op: "comment", id: 1, version: 0, text: "a"}, "op"],
  ["a comment past the document", {op: "comment", id: 1, version: 0, from: 1, to: 900, text: "a"}, "op"],
  ["a comment past the log", {op: "comment", id: 1, version: 99, from: 1, to: 1, text: "a"}, "op"],
  ["a comment without a text", {op: "comment", id: 1, version: 0, from: 1, to: 1, text: " "}, "op"],
  ["a reply to no comment", {op: "reply", id: 1, comment: "none", text: "a"}, "op"],
  ["a second hello", {op: "hello"}, "hello", 4400],
  ["a message that is too long", {op: "submit", id: 1, version: 0, steps: [inserted("x".repeat(21_000))]}, "too-long", 1009],
  ["a message that is far too long", {op: "submit", id: 1, version: 0, steps: [inserted("x".repeat(200_000))]}, null, 1009],
]

const codeOf = ({op, code, answer}) => {
  if (op == "error") return code
  return answer.fault !== undefined ? `fault ${answer.fault}` : `refused ${answer.refused.reason}`
}

const refused = (store, skip, [what, message, code, closes]) =>
  test(`refused and told, ${store}: ${what}`, {skip}, async () => {
    const {address} = servers[store], eve = await join(address, "stays", "eve"), ann = await join(address, "stays", "ann")
    eve.send(Buffer.isBuffer(message) ? "" : message)
    if (Buffer.isBuffer(message)) eve.socket.send(message)
    if (closes) assert.equal((await within(eve.closed, "the end")).code, closes)
    if (code) assert.equal(codeOf(await eve.heard(it => it.op == "error" || it.op == "answer")), code)
    if (!closes) {
      eve.send({op: "ping"})
      await eve.heard(it => it.op == "pong")
      await eve.close()
    }
    // Nothing has changed, and the other one is told nothing of it.
    assert.deepEqual((await ann.ask({op: "since", version: 0})).version, 0)
    assert.deepEqual(ann.told.filter(it => it.op == "entries" || it.op == "error" || it.op == "comment"), [])
    await ann.close()
  })

for (const [store, skip] of Object.entries(STORES)) for (const fault of FAULTS) refused(store, skip, fault)

// ---- what is refused for other reasons

test("who may read alone writes nothing", async () => {
  const ann = await join(server.address, "readable", "ann")
  const eve = new Talker(server.address, "readable", {token: tokenFor("eve", {documents: {readable: "read"}})})
  assert.equal((await eve.hello()).right, "read")
  for (const message of [{op: "submit", version: 0, steps}, {op: "comment", version: 0, from: 1, to: 1, text: "a"}])
    await assert.rejects(eve.ask(message), {code: "read-only"})
  assert.deepEqual(await ann.submit(0, "a"), {accepted: {count: 1, from: 0}})
  assert.equal((await eve.heard(it => it.op == "entries")).entries.version, 1)
  await Promise.all([ann, eve].map(it => it.close()))
})

test("a page of another origin gets no WebSocket and no answer", async () => {
  const talker = new Talker(server.address, "faulty", {token: tokenFor("ann"), origin: "https://elsewhere.example"})
  await assert.rejects(talker.opened, /403/)
  const own = new Talker(server.address, "faulty", {token: tokenFor("ann"), origin: server.address})
  await own.hello()
  await own.close()
  const response = await fetch(`${server.address}/documents/faulty`, {headers: {Origin: "https://elsewhere.example"}})
  assert.deepEqual([response.status, (await response.json()).error.code], [403, "origin"])
})

test("who says no hello is let go", async () => {
  const hasty = await serve({helloSeconds: 0.5}), talker = new Talker(hasty.address, "faulty", {token: tokenFor("ann")})
  assert.equal((await within(talker.closed, "the end")).code, 4400)
  assert.deepEqual(talker.errors.map(it => it.code), ["hello"])
  await hasty.stop()
})

// What is said by a socket of its own, until it is closed.
function saidTo(text) {
  const socket = net.connect(server.port, "127.0.0.1")
  socket.end(text)
  return within(new Promise(resolve => {
    let said = ""
    socket.setEncoding("utf8").on("data", part => { said += part }).on("close", () => resolve(said))
  }), "the end")
}

test("a WebSocket that is at no document, an address that is none, and what is no HTTP", async () => {
  const WebSocket = new Talker(server.address, "faulty", {token: tokenFor("ann")}).socket.constructor
  const lost = new WebSocket(`${server.address.replace("http", "ws")}/elsewhere`)
  await assert.rejects(new Promise((resolve, reject) => lost.on("open", resolve).on("error", reject)), /404/)
  const key = "Sec-WebSocket-Key: dGhlIHNhbXBsZSBub25jZQ==", upgrade = `Connection: Upgrade\r\nUpgrade: websocket\r\n${key}`
  assert.match(await saidTo(`GET // HTTP/1.1\r\nHost: a\r\nSec-WebSocket-Version: 13\r\n${upgrade}\r\n\r\n`), /^HTTP\/1.1 404/)
  assert.match(await saidTo("GET // HTTP/1.1\r\nHost: a\r\nConnection: close\r\n\r\n"), /^HTTP\/1.1 404/)
  assert.match(await saidTo("nonsense\r\n\r\n"), /^HTTP\/1.1 400/)
})

test("no more connections, documents and comments than one may have", async () => {
  const talkers = []
  for (let i = 0; i < 8; i++) talkers.push(await join(server.address, `limit${i % 3}`, "mel"))
  const more = new Talker(server.address, "limit0", {token: tokenFor("mel")})
  assert.equal((await more.closed).code, 4429)
  await talkers.pop().close()
  const other = new Talker(server.address, "limit9", {token: tokenFor("mel")})
  assert.equal((await other.closed).code, 4429)
  assert.equal(other.errors[0].code, "limit")
  const [mel] = talkers
  for (let i = 0; i < 2; i++) await mel.ask({op: "comment", version: 0, from: 1, to: 1, text: "a"})
  await assert.rejects(mel.ask({op: "comment", version: 0, from: 1, to: 1, text: "a"}), {code: "limit"})
  await Promise.all(talkers.map(it => it.close()))
})

test("who sends too much is told to wait, and let go where it goes on", async () => {
  const strict = await serve({messagesPerSecond: 5, messageBurst: 20})
  const ann = await join(strict.address, "rated", "ann"), bob = await join(strict.address, "rated", "bob")
  for (let i = 0; i < 60; i++) ann.send({op: "ping"})
  const {retry} = await ann.heard(it => it.op == "error" && it.code == "rate")
  assert.ok(retry > 0 && retry <= 1000)
  assert.deepEqual(await bob.submit(0, "b"), {accepted: {count: 1, from: 0}})
  for (let i = 0; i < 200; i++) ann.send({op: "ping"})
  assert.equal((await within(ann.closed, "the end")).code, 4429)
  await bob.close()
  await strict.stop()
})

test("a hook of access may know users otherwise", async () => {
  const hooked = await serve({access: new URL("hook.js", import.meta.url).pathname})
  const ann = new Talker(hooked.address, "hooked", {headers: {Cookie: "user=ann"}})
  await ann.hello()
  assert.deepEqual([ann.welcome.right, ann.welcome.name], ["write", "Ann"])
  const none = new Talker(hooked.address, "hooked", {})
  assert.equal((await none.closed).code, 4401)
  await ann.close()
  await hooked.stop()
})

test("tokens: what they say, and who may sign them", () => {
  assert.throws(() => signToken(SECRET, {user: "a b", documents: {}, expires: Date.now()}))
  assert.throws(() => signToken(SECRET, {user: "a", documents: {}}))
})
