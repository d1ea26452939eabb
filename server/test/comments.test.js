// Comments: their places ride on the document's steps, also past the end of the server.

import assert from "node:assert/strict"
import {after, before, test} from "node:test"
import {setTimeout as wait} from "node:timers/promises"
import {LOGS, newFolder, serve, skipsFiles} from "./servers.js"
import {inserted, join} from "./talker.js"

let server
before(async () => { server = await serve({messageBurst: 1_000, snapshotEvery: 30}) })
after(() => server.stop())

const deleted = (from, to) => ({stepType: "replace", from, to})

const placesOf = comments => comments.map(it => [it.text, it.from, it.to])

const listOf = async talker => (await talker.ask({op: "comments"})).comments

test("places are carried past what others do", async () => {
  const ann = await join(server.address, "carried", "ann"), bob = await join(server.address, "carried", "bob")
  await ann.submit(0, "Hello, world")
  const {comment} = await ann.ask({op: "comment", version: 1, from: 8, to: 13, text: "which?", quote: "world"})
  assert.deepEqual([comment.author, comment.version, comment.from, comment.to, comment.resolved], ["ann", 1, 8, 13, false])
  assert.deepEqual((await bob.heard(it => it.op == "comment")).comment, comment)
  await bob.ask({op: "submit", version: 1, steps: [inserted("Oh! ")]})
  await bob.ask({op: "submit", version: 2, steps: [inserted("<", 12), inserted(">", 18)]})
  assert.deepEqual(placesOf(await listOf(ann)), [["which?", 13, 18]])
  const carl = await join(server.address, "carried", "carl")
  assert.deepEqual([carl.welcome.comments[0].version, carl.welcome.comments[0].from], [4, 13])
  await bob.ask({op: "submit", version: 4, steps: [deleted(12, 19)]})
  const [{from, to, quote}] = await listOf(ann)
  assert.deepEqual([from >= to, quote], [true, "world"])
  await Promise.all([ann, bob, carl].map(it => it.close()))
})

test("they are replied to, resolved, and taken away by their author alone", async () => {
  const ann = await join(server.address, "talked", "ann", {hello: {name: "Ann"}}), bob = await join(server.address, "talked", "bob")
  await ann.submit(0, "text")
  const {comment: {id}} = await ann.ask({op: "comment", version: 1, from: 1, to: 3, text: "a"})
  const replied = await bob.ask({op: "reply", comment: id, text: "b"})
  assert.deepEqual(replied.comment.replies.map(it => [it.author, it.text]), [["bob", "b"]])
  assert.equal((await bob.ask({op: "resolve", comment: id, resolved: true})).comment.resolved, true)
  await ann.heard(it => it.op == "comment" && it.comment.resolved)
  await assert.rejects(bob.ask({op: "uncomment", comment: id}), {code: "access"})
  assert.deepEqual(await ann.ask({op: "uncomment", comment: id}), {uncommented: id})
  await bob.heard(it => it.op == "uncomment" && it.comment == id)
  assert.deepEqual(await listOf(bob), [])
  await Promise.all([ann, bob].map(it => it.close()))
})

test("there may be more than one client of the engine has cursors for", async () => {
  const ann = await join(server.address, "many", "ann")
  await ann.submit(0, "x".repeat(100))
  for (let i = 0; i < 70; i++) await ann.ask({op: "comment", version: 1, from: 1 + i, to: 2 + i, text: `${i}`})
  await ann.submit(1, "ab", 50)
  const moved = it => (it >= 50 ? it + 2 : it)
  const all = await listOf(ann)
  assert.deepEqual(placesOf(all).map(([text, from]) => [text, from]), [...Array(70).keys()].map(i => [`${i}`, moved(1 + i)]))
  await ann.close()
})

test("of a version that is gone they are to be told again", async () => {
  const ann = await join(server.address, "behind", "ann")
  for (let version = 0; version < 20; version++) await ann.submit(version, "x")
  await ann.ask({op: "comment", version: 10, from: 1, to: 3, text: "a"})
  assert.deepEqual(placesOf(await listOf(ann)), [["a", 11, 13]])
  await assert.rejects(ann.ask({op: "comment", version: 12, from: 1, to: 3, text: "b"}), {code: "behind"})
  await ann.ask({op: "comment", version: 20, from: 1, to: 3, text: "b"})
  await ann.close()
})

for (const store of Object.keys(LOGS))
  test(`past the server's end they are where they were carried to, ${store}`, {skip: skipsFiles}, async () => {
    const settings = {store, folder: newFolder(), snapshotEvery: 10, messageBurst: 1_000}
    const first = await serve(settings), ann = await join(first.address, "kept", "ann")
    await ann.submit(0, "Hello, world")
    await ann.ask({op: "comment", version: 1, from: 8, to: 13, text: "a"})
    for (let version = 1; version < 25; version++) await ann.submit(version, "x")
    await wait(100)
    await ann.ask({op: "comment", version: 25, from: 1, to: 2, text: "b"})
    await ann.submit(25, "y")
    await ann.close()
    await first.stop()
    const second = await serve(settings), bob = await join(second.address, "kept", "bob")
    assert.deepEqual(placesOf(bob.welcome.comments), [["a", 33, 38], ["b", 2, 3]])
    assert.equal(bob.welcome.comments[0].version, 26)
    await bob.submit(26, "z")
    assert.deepEqual(placesOf(await listOf(bob)), [["a", 34, 39], ["b", 3, 4]])
    await bob.close()
    await second.stop()
  })
