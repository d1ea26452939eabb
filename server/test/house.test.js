// The store over a house, beyond what all stores have: what the house has once, its one file, and its one process.

import assert from "node:assert/strict"
import {spawn, spawnSync} from "node:child_process"
import fs from "node:fs"
import path from "node:path"
import {describe, test} from "node:test"
import {makeLog} from "../log.js"
import {settingsOf} from "../settings.js"
import {storeOf} from "../store/store.js"
import {newFolder, PROGRAM, serve, skipsFiles} from "./servers.js"
import {inserted, join, SECRET} from "./talker.js"
import {until} from "./waiting.js"

const schema = JSON.parse(fs.readFileSync(new URL("../schemas/basic.json", import.meta.url))).schema
const plain = {nodes: [{name: "doc", content: "paragraph+"}, {name: "paragraph", content: "text*"}, {name: "text"}]}
const basic = {schemaName: "basic", schema, doc: null}, silent = {grown() {}, noted() {}, ended() {}}
const submission = (version, ...texts) => ({version, clientID: "ann~1", steps: texts.map(it => inserted(it))})

// A store, started, with the lines of its log.
async function started(folder, store = "house") {
  const lines = [], log = makeLog("debug", line => lines.push(JSON.parse(line))), engines = {isThere: async () => false}
  const opened = storeOf(settingsOf({secret: [SECRET], program: [PROGRAM], store, folder}, {}), {engines, log})
  await opened.start()
  return Object.assign(opened, {lines})
}

// What the house had when a store's process began.
const hadAt = ({lines}) => lines.filter(it => it.event == "house-opened").map(it => [it.documents, it.entries, it.schemas])

// What the program answers, outside of any store.
function told(words, ...messages) {
  const {stdout, status} = spawnSync(PROGRAM, ["many", ...words], {input: messages.map(it => `${JSON.stringify(it)}\n`).join("")})
  assert.equal(status, 0)
  return stdout.toString().trim().split("\n").map(it => JSON.parse(it))
}

const isAlive = pid => fs.existsSync(`/proc/${pid}`)

describe("a house", {skip: skipsFiles}, () => {
  test("has a schema once, also after a start, and a document of each as it was made", async () => {
    const folder = newFolder(), doc = {type: "doc", content: [{type: "paragraph", content: [{type: "text", text: "first"}]}]}
    for (const round of [0, 1]) {
      const store = await started(folder)
      const made = [basic, {...basic, schemaName: "other"}, {schemaName: "plain", schema: plain, doc}]
      const held = await Promise.all(made.map((it, i) => store.open(`${round}-${i}`, it, silent)))
      assert.deepEqual(held.map(it => it.schemaName), ["basic", "other", "plain"])
      await held[2].submit(submission(0, "x"))
      assert.deepEqual(await held[2].doc(true), {doc, version: 0})
      await Promise.all(held.map(it => it.close()))
      await store.end()
    }
    const store = await started(folder), again = await store.open("0-2", null, silent)
    assert.deepEqual(hadAt(store), [[6, 2, 2]])
    assert.deepEqual([again.schemaName, again.schema, await again.doc(true)], ["plain", plain, {doc, version: 0}])
    await again.close()
    await store.end()
  })

  test("is one process for all, which stays as documents come and go, and ends with the store", async () => {
    const store = await started(newFolder()), one = await store.open("one", basic, silent), other = await store.open("other", basic, silent)
    const {pid} = one
    assert.equal(other.pid, pid)
    await one.submit(submission(0, "x"))
    await one.close()
    const again = await store.open("one", null, silent)
    assert.deepEqual([again.pid, again.version, again.epoch], [pid, 1, one.epoch])
    await Promise.all([again, other].map(it => it.close()))
    await store.end()
    assert.ok(!isAlive(pid))
    assert.deepEqual(store.lines.filter(it => it.level == "warn"), [])
    await assert.rejects(store.open("one", null, silent), {code: "store"})
  })

  test("tells all that hold a document where its process ends, and nobody else, and begins anew", async () => {
    const store = await started(newFolder()), ended = []
    const open = (name, first) => store.open(name, first, {...silent, ended: error => ended.push([name, error.message])})
    const held = await Promise.all(["a", "b", "gone"].map(it => open(it, basic)))
    await held[2].close()
    process.kill(held[0].pid, "SIGKILL")
    await assert.rejects(held[0].submit(submission(0, "x")), {code: "store"})
    await until(() => ended.length == 2, "both are told")
    assert.deepEqual(ended.map(it => it[0]).sort(), ["a", "b"])
    await assert.rejects(held[1].doc(), {code: "store"})
    await Promise.all(held.slice(0, 2).map(it => it.close()))
    const again = await Promise.all(["a", "b"].map(it => open(it, null)))
    assert.ok((await again[1].submit(submission(0, "x"))).accepted)
    assert.equal(again[0].pid, again[1].pid)
    assert.equal(ended.length, 2)
    // (what it had, the second time)
    assert.deepEqual(hadAt(store)[1], [3, 0, 1])
    await Promise.all(again.map(it => it.close()))
    await store.end()
  })

  test("is well again by itself once its process is", async () => {
    const folder = newFolder(), store = await started(folder), held = await store.open("a", basic, silent)
    process.kill(held.pid, "SIGKILL")
    await until(() => !isAlive(held.pid), "its end")
    await store.check()
    fs.renameSync(path.join(folder, "house.log"), path.join(folder, "elsewhere"))
    const {pid} = await store.open("b", basic, silent)
    process.kill(pid, "SIGKILL")
    await until(() => !isAlive(pid), "its end")
    fs.writeFileSync(path.join(folder, "house.log"), "nothing of the engine's")
    await assert.rejects(store.check(), /status 9: no file of pm_live/)
    await assert.rejects(store.open("a", null, silent), {code: "store"})
    fs.renameSync(path.join(folder, "elsewhere"), path.join(folder, "house.log"))
    await store.check()
    assert.equal((await store.open("a", null, silent)).version, 0)
    await store.end()
  })

  test("gives many entries in parts", async () => {
    const store = await started(newFolder()), held = await store.open("long", basic, silent)
    const texts = [...Array(2_500).keys()].map(it => `${it} `)
    assert.deepEqual(await held.submit(submission(0, ...texts)), {accepted: {count: 2_500, from: 0}})
    await held.close()
    const again = await store.open("long", null, silent), steps = []
    while (steps.length < again.version) {
      const part = await again.since(steps.length, 1_000_000)
      assert.ok(part.steps.length > 0 && part.version == steps.length + part.steps.length)
      steps.push(...part.steps)
    }
    assert.deepEqual(steps.map(it => JSON.parse(it).slice.content[0].text), texts)
    await again.close()
    await store.end()
  })

  test("waits for a file that is open in another process still", async () => {
    const folder = newFolder(), first = await started(folder)
    await (await first.open("a", basic, silent)).close()
    await first.end()
    const other = spawn(PROGRAM, ["many", "open", path.join(folder, "house.log")], {stdio: ["pipe", "pipe", "ignore"]})
    await new Promise(resolve => other.stdout.once("data", resolve))
    setTimeout(() => other.stdin.end(), 700)
    const second = await started(folder)
    assert.equal((await second.open("a", null, silent)).version, 0)
    await second.end()
  })

  test("tells where it has no room", async () => {
    const folder = newFolder(), file = path.join(folder, "house.log")
    told(["new", file], ...[...Array(1_024).keys()].map(it => ({op: "schema", name: `${it}`, schema: plain})))
    const store = await started(folder)
    await assert.rejects(store.open("a", basic, silent), {code: "limit"})
    assert.equal(await store.open("a", null, silent), null)
    await store.end()
  })

  test("says what is wrong with what a document is to be made of, and makes it where that is right", async () => {
    const store = await started(newFolder())
    await assert.rejects(store.open("a", {...basic, schema: {nodes: []}}, silent), {code: "store"})
    await assert.rejects(store.open("a", {...basic, doc: {type: "none"}}, silent), {code: "store"})
    assert.equal(await store.open("a", null, silent), null)
    assert.equal((await store.open("a", basic, silent)).version, 0)
    await store.end()
  })

  test("packed, or less by a document, it goes on", async () => {
    const folder = newFolder(), file = path.join(folder, "house.log"), first = await started(folder)
    const held = await Promise.all(["kept", "deleted"].map(it => first.open(it, basic, silent)))
    for (const it of held) await it.submit(submission(0, "x", "y"))
    await Promise.all(held.map(it => it.close()))
    await first.end()
    assert.deepEqual(told(["open", file], {op: "close", in: "deleted"})[1], {closed: "deleted"})
    for (const kind of ["notes", "epoch"]) fs.rmSync(path.join(folder, `deleted.${kind}`))
    const before = fs.statSync(file).size
    told(["pack", file, `${file}.new`])
    fs.renameSync(`${file}.new`, file)
    assert.ok(fs.statSync(file).size < before)
    const second = await started(folder), kept = await second.open("kept", null, silent)
    assert.deepEqual([kept.version, kept.epoch], [2, held[0].epoch])
    assert.ok((await kept.submit(submission(2, "z"))).accepted)
    assert.equal(await second.open("deleted", null, silent), null)
    await second.end()
  })

  test("put back from before a document, it makes that anew, without the notes that stayed", async () => {
    const folder = newFolder(), file = path.join(folder, "house.log"), first = await started(folder)
    await (await first.open("old", basic, silent)).close()
    const copy = fs.readFileSync(file), held = await first.open("newer", basic, silent)
    await held.submit(submission(0, "x"))
    await held.note("comment:a", {id: "a"})
    await held.close()
    await first.end()
    fs.writeFileSync(file, copy)
    const second = await started(folder)
    assert.equal(await second.open("newer", null, silent), null)
    const again = await second.open("newer", basic, silent)
    assert.deepEqual([again.version, again.notes.size], [0, 0])
    assert.notEqual(again.epoch, held.epoch)
    assert.match(fs.readFileSync(path.join(folder, "newer.notes.old"), "utf8"), /comment:a/)
    await second.end()
  })

  test("may take longer to begin anew than a hello may, which waits for it", async () => {
    const program = ["sh", "-c", 'sleep 2; exec "$0" "$@"', PROGRAM]
    const server = await serve({store: "house", folder: newFolder(), program, helloSeconds: 1})
    const ann = await join(server.address, "slow", "ann"), [{held}] = await server.documents.all()
    process.kill(held.pid, "SIGKILL")
    assert.equal((await ann.closed).code, 4503)
    const bob = await join(server.address, "slow", "bob")
    assert.deepEqual(await bob.submit(0, "b"), {accepted: {count: 1, from: 0}})
    await bob.close()
    await server.stop()
  })

  test("does not take a folder's documents for its own, nor a folder a house's", async () => {
    for (const [one, other] of [["folder", "house"], ["house", "folder"]]) {
      const folder = newFolder(), store = await started(folder, one)
      await (await store.open("a", basic, silent)).close()
      await store.end()
      await assert.rejects(started(folder, other), new RegExp(`those of the store ${one}`))
    }
  })
})
