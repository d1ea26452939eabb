// One suite for each store: what is accepted is kept, in order, once.

import assert from "node:assert/strict"
import fs from "node:fs"
import path from "node:path"
import {after, before, describe, test} from "node:test"
import {Engines} from "../engine.js"
import {makeLog} from "../log.js"
import {settingsOf} from "../settings.js"
import {Notes} from "../store/notes.js"
import {storeOf} from "../store/store.js"
import {LOGS, newFolder, PROGRAM, skipsFiles} from "./servers.js"
import {startPostgres} from "./postgres.js"
import {inserted, SECRET} from "./talker.js"
import {within} from "./waiting.js"

const schema = JSON.parse(fs.readFileSync(new URL("../schemas/basic.json", import.meta.url))).schema
const first = {schemaName: "basic", schema, doc: null}

const silent = {grown() {}, noted() {}, ended() {}}

const submission = (version, text, clientID = "ann~1") => ({version, clientID, steps: [inserted(text)]})

// Entries as values: a store has them as the texts that the engine wrote.
const entriesOf = async (held, from, bytes) => {
  const {clientIDs, steps, version} = await held.since(from, bytes)
  return {clientIDs: clientIDs.map(it => JSON.parse(it)), steps: steps.map(it => JSON.parse(it)), version}
}

const textOf = ({doc}) => doc.content.map(it => it.content?.[0]?.text ?? "").join("|")

/** How stores are opened: `make` gives settings, `isKept` says whether documents outlive the store. */
function suite(name, {make, isKept, skip}) {
  describe(`the store ${name}`, {skip}, () => {
    let settings, store, engines
    const start = async () => {
      const opened = storeOf(settings, {engines, log: makeLog("silent")})
      await opened.start()
      return opened
    }

    before(async () => {
      engines = new Engines({count: 1})
      settings = settingsOf({secret: [SECRET], program: [PROGRAM], snapshotEvery: 10, ...await make()}, {})
      store = await start()
    })
    after(() => store?.end())

    test("makes a document once, and none without being told of what", async () => {
      assert.equal(await store.open("made", null, silent), null)
      const held = await store.open("made", first, silent)
      assert.deepEqual([held.version, held.schemaName, held.schema], [0, "basic", schema])
      assert.deepEqual(await held.doc(), {doc: {type: "doc", content: [{type: "paragraph"}]}, version: 0})
      await held.close()
      const again = await store.open("made", null, silent)
      assert.equal(again.version, 0)
      await again.close()
    })

    test("answers as the engine does, and tells how long the log is", async () => {
      const grown = []
      const held = await store.open("answers", first, {...silent, grown: version => grown.push(version)})
      assert.deepEqual(await held.submit(submission(0, "a")), {accepted: {count: 1, from: 0}})
      assert.deepEqual(await held.submit(submission(0, "b")), {version: 1})
      assert.deepEqual(await held.submit({...submission(1, "b"), steps: [inserted("b"), inserted("c")]}), {accepted: {count: 2, from: 1}})
      const refused = await held.submit({...submission(3, ""), steps: [inserted("x"), {stepType: "replace", from: 0, to: 3}]})
      assert.equal(refused.refused.index, 1)
      assert.equal((await held.submit({...submission(3, ""), steps: [{stepType: "none"}]})).fault, 7)
      assert.deepEqual(await held.submit({...submission(3, ""), steps: []}), {accepted: {count: 0, from: 3}})
      assert.equal(held.version, 3)
      assert.deepEqual(grown.filter((it, i) => it != grown[i - 1]), [1, 3])
      assert.equal(textOf(await held.doc()), "cba")
      assert.equal(textOf(await held.doc(true)), "")
      await held.close()
    })

    test("gives the entries from any version on, in parts", async () => {
      const held = await store.open("entries", first, silent)
      for (let version = 0; version < 35; version++) await held.submit(submission(version, String(version % 10), `u~${version}`))
      const all = await entriesOf(held, 0, 1_000_000)
      assert.deepEqual(all.clientIDs, [...Array(35).keys()].map(it => `u~${it}`))
      assert.equal(all.version, 35)
      for (const from of [0, 7, 20, 34]) {
        const part = await entriesOf(held, from, 300)
        assert.ok(part.steps.length >= 1 && part.version == from + part.steps.length && part.version <= 35)
        assert.deepEqual(part.steps, all.steps.slice(from, part.version))
      }
      assert.deepEqual(await entriesOf(held, 35, 1_000), {clientIDs: [], steps: [], version: 35})
      await held.close()
    })

    test("one after the other where many come at once", async () => {
      const held = await store.open("crowd", first, silent)
      const answers = await Promise.all([...Array(20).keys()].map(i => held.submit(submission(0, "x", `u~${i}`))))
      assert.equal(answers.filter(it => it.accepted).length, 1)
      assert.equal(answers.filter(it => it.version == 1).length, 19)
      await held.close()
    })

    test("keeps notes, and takes them away", async () => {
      const held = await store.open("noted", first, silent)
      await held.note("a", {text: "ä\n\u2028", list: [1]})
      await held.note("b", 1)
      await held.note("b", 2)
      await held.note("c", "gone")
      await held.note("c", undefined)
      await held.note("fleeting", 1, true)
      await held.close()
      const again = await store.open("noted", null, silent)
      assert.deepEqual([...again.notes].sort(), [["a", {text: "ä\n\u2028", list: [1]}], ["b", 2]])
      await again.close()
    })

    test("keeps all past its own end", {skip: !isKept}, async () => {
      const held = await store.open("kept", first, silent)
      for (let version = 0; version < 25; version++) await held.submit(submission(version, "abc"[version % 3]))
      await held.note("comment", {text: "kept"})
      const before = [await held.doc(), await entriesOf(held, 0, 1_000_000)]
      await held.close()
      await store.end()
      store = await start()
      const again = await store.open("kept", null, silent)
      assert.deepEqual([await again.doc(), await entriesOf(again, 0, 1_000_000)], before)
      assert.deepEqual([...again.notes], [["comment", {text: "kept"}]])
      assert.deepEqual(await again.submit(submission(24, "z")), {version: 25})
      assert.deepEqual(await again.submit(submission(25, "z")), {accepted: {count: 1, from: 25}})
      await again.close()
    })

    test("texts of all kinds come back as they were", async () => {
      const held = await store.open("texts", first, silent)
      const texts = ["\u0000", "\"\\", "\ud83d\ude00", "\u2028", "ſ", "e\u0301", "\u007f", "</script>"]
      for (const [version, text] of texts.entries()) assert.ok((await held.submit(submission(version, text))).accepted)
      const {steps} = await entriesOf(held, 0, 1_000_000)
      assert.deepEqual(steps.map(it => it.slice.content[0].text), texts)
      await held.close()
    })

    test("is well, also where many ask at once", () => within(Promise.all([...Array(20)].map(() => store.check())), "the check"))
  })
}

suite("memory", {make: () => ({store: "memory"}), isKept: false})
for (const store of Object.keys(LOGS)) suite(store, {make: () => ({store, folder: newFolder()}), isKept: true, skip: skipsFiles})

const postgres = await startPostgres()
suite("postgres", {
  make: () => ({store: "postgres", database: postgres.database("stores")}), isKept: true, skip: postgres.missing ?? false,
})
after(() => postgres.stop())

test("notes in a file: stale ones go, and a line that a crash has cut is none", async () => {
  const file = path.join(newFolder(), "a.notes"), notes = await Notes.open(file)
  for (let i = 0; i < 40; i++) await notes.set("large", `${i}`.repeat(50_000))
  await notes.set("small", 1)
  assert.ok(fs.statSync(file).size < 2_000_000)
  fs.appendFileSync(file, '{"id":"small","val')
  const again = await Notes.open(file)
  assert.deepEqual([...again.notes], [["large", "39".repeat(50_000)], ["small", 1]])
  await again.set("small", 2)
  assert.deepEqual((await Notes.open(file)).notes.get("small"), 2)
})
