// Two servers over one PostgreSQL. Of the two one is ended by force in the midst, and its editors go on at the other.

import assert from "node:assert/strict"
import {after, before, describe, test} from "node:test"
import {setTimeout as wait} from "node:timers/promises"
import {agree} from "./agree.js"
import {Editor} from "./editor.js"
import {startPostgres} from "./postgres.js"
import {serve, spawnServer} from "./servers.js"
import {join} from "./talker.js"
import {until} from "./waiting.js"

const postgres = await startPostgres()
after(() => postgres.stop())

describe("two servers over PostgreSQL", {skip: postgres.missing ?? false}, () => {
  let database
  before(() => { database = postgres.database("two") })

  const settings = () => ({store: "postgres", database, snapshotEvery: 40, messageBurst: 5_000, messagesPerSecond: 5_000})

  test("tell each other: entries, who is there, comments", async () => {
    const servers = await Promise.all([serve(settings()), serve(settings())])
    const [ann, bob] = await Promise.all(servers.map((it, i) => join(it.address, "told", ["ann", "bob"][i])))
    await ann.submit(0, "a")
    assert.equal((await bob.heard(it => it.op == "entries")).entries.version, 1)
    await bob.submit(1, "b")
    assert.equal((await ann.heard(it => it.op == "entries")).entries.version, 2)
    ann.send({op: "presence", version: 2, anchor: 1, head: 2})
    await bob.heard(it => it.op == "presence" && it.clientID == ann.welcome.clientID && it.head == 2)
    const {comment} = await ann.ask({op: "comment", version: 2, from: 1, to: 3, text: "all of it", quote: "ba"})
    const told = await bob.heard(it => it.op == "comment")
    assert.deepEqual([told.comment.id, told.comment.from, told.comment.to], [comment.id, 1, 3])
    await bob.ask({op: "resolve", comment: comment.id, resolved: true})
    await ann.heard(it => it.op == "comment" && it.comment.resolved)
    await ann.close()
    await bob.heard(it => it.op == "left")
    await bob.close()
    await Promise.all(servers.map(it => it.stop()))
  })

  test("both change one comment at once, and no reply is lost", async () => {
    const servers = await Promise.all([serve(settings()), serve(settings())])
    const both = await Promise.all(servers.map((it, i) => join(it.address, "replied", ["ann", "bob"][i]))), [ann, bob] = both
    await ann.submit(0, "text")
    const {comment: {id}} = await ann.ask({op: "comment", version: 1, from: 1, to: 3, text: "a"})
    await bob.heard(it => it.op == "comment")
    for (let i = 0; i < 10; i++) await Promise.all(both.map(it => it.ask({op: "reply", comment: id, text: `${i}`})))
    for (const it of both)
      await until(async () => (await it.ask({op: "comments"})).comments[0].replies.length == 20, "all replies are there")
    await ann.ask({op: "uncomment", comment: id})
    await assert.rejects(bob.ask({op: "reply", comment: id, text: "late"}), {code: "op"})
    await Promise.all(both.map(it => it.close()))
    await Promise.all(servers.map(it => it.stop()))
  })

  test("of two with one version one alone is accepted", async () => {
    const servers = await Promise.all([serve(settings()), serve(settings())])
    const writers = await Promise.all(servers.map((it, i) => join(it.address, "raced", `user${i}`)))
    for (let version = 0; version < 20; version++) {
      const answers = await Promise.all(writers.map((it, i) => it.submit(version, `${i}`)))
      assert.deepEqual(answers.map(it => Object.keys(it)[0]).sort(), ["accepted", "version"], JSON.stringify(answers))
    }
    const rows = await postgres.rows("two", "SELECT version FROM gezhufet_entries WHERE document = 'raced' ORDER BY version")
    assert.deepEqual(rows.map(it => Number(it.version)), [...Array(20).keys()])
    await Promise.all(writers.map(it => it.close()))
    await Promise.all(servers.map(it => it.stop()))
  })

  test("one is ended by force: no accepted step is lost or doubled", async () => {
    const servers = await Promise.all([spawnServer(settings()), spawnServer(settings())])
    const addresses = servers.map(it => it.address)
    const editors = [0, 1, 2, 3, 4, 5].map(i => new Editor(addresses, "killed", `user${i}_`, {seed: i + 1, at: i % 2}))
    await Promise.all(editors.map(it => it.start()))
    const typing = editors.map(it => it.typeOn(20, 100))
    await wait(900)
    await servers[0].kill()
    await Promise.all(typing)
    await Promise.all(editors.map(it => it.settled()))
    const log = await agree([addresses[1]], "killed", editors)
    const rows = await postgres.rows("two", "SELECT client, step FROM gezhufet_entries WHERE document = 'killed' ORDER BY version")
    assert.deepEqual(rows.map(it => [it.client, JSON.parse(it.step)]), log.steps.map((step, i) => [log.clientIDs[i], step]))
    assert.ok(editors.filter(it => it.moves > 0).length >= 3)
    for (const editor of editors) editor.end()
    assert.equal(await servers[1].stop(), 0)
  })

  test("the database ends all connections in the midst", async () => {
    const servers = await Promise.all([serve(settings()), serve(settings())]), addresses = servers.map(it => it.address)
    const editors = [0, 1, 2].map(i => new Editor(addresses, "cut", `user${i}_`, {seed: i + 11, at: i % 2}))
    await Promise.all(editors.map(it => it.start()))
    const typing = editors.map(it => it.typeOn(15, 80))
    for (let times = 0; times < 3; times++) {
      await wait(250)
      postgres.cut("two")
    }
    await Promise.all(typing)
    await Promise.all(editors.map(it => it.settled()))
    await agree(addresses, "cut", editors)
    for (const editor of editors) editor.end()
    await Promise.all(servers.map(it => it.stop()))
  })
})
