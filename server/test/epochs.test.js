// What keeps the documents is put back from an older state: no editor goes on from a log that is gone.

import assert from "node:assert/strict"
import fs from "node:fs"
import path from "node:path"
import {after, before, describe, test} from "node:test"
import {openEngine} from "../../bindings/js/src/index.js"
import {Desk} from "../../bindings/js/test/desk.js"
import {joinDocument} from "../client.js"
import {packageOf} from "../packages.js"
import {Line} from "./line.js"
import {startPostgres} from "./postgres.js"
import {LOGS, newFolder, serve, skipsFiles} from "./servers.js"
import {join, Talker, tokenFor} from "./talker.js"
import {until} from "./waiting.js"

const packages = {...packageOf("prosemirror-state"), ...packageOf("prosemirror-transform"), ...packageOf("prosemirror-view")}
const {schema} = packageOf("../tests/schema-line/basic-with-lists.js")

async function write(server, document, count) {
  const ann = await join(server.address, document, "ann"), {version, epoch, ticket} = ann.welcome
  for (let at = version; at < version + count; at++) assert.ok((await ann.submit(at, "a")).accepted)
  await ann.close()
  return {version: version + count, epoch, ticket}
}

// With what code one who comes back is let in, or not.
async function back(server, document, hello) {
  const ann = new Talker(server.address, document, {token: tokenFor("ann")})
  const told = await ann.hello(hello).then(it => [it.version], error => [ann.errors[0]?.code, error.message])
  await ann.close()
  return told
}

const GONE = ["epoch", "closed with 4410"]

/** `make` gives settings, `save` copies what is kept, and each of `ways` puts it back. */
function suite(name, {make, save, ways, skip}) {
  describe(`epochs, ${name}`, {skip}, () => {
    let settings
    before(async () => { settings = await make() })

    test("one log has one, and another document another one", {skip: name == "memory"}, async () => {
      const first = await serve(settings), one = await write(first, "one", 2), other = await write(first, "other", 1)
      assert.notEqual(one.epoch, other.epoch)
      await until(async () => first.documents.size == 0, "both are closed")
      assert.deepEqual(await back(first, "one", one), [2])
      await first.stop()
      const second = await serve(settings)
      assert.deepEqual(await back(second, "one", one), [2])
      for (const epoch of [other.epoch, null, undefined, 7]) assert.deepEqual(await back(second, "one", {...one, epoch}), GONE)
      await second.stop()
    })

    for (const [way, putBack] of Object.entries(ways))
      test(`what is older is put back: ${way}`, async () => {
        const document = `old-${way.replaceAll(" ", "-")}`, run = async (count, more = {}) => {
          const server = await serve({...settings, ...more}), wrote = await write(server, document, count)
          await server.stop()
          return wrote
        }
        await run(3)
        const kept = await save(settings), gone = await run(2)
        assert.equal(gone.version, 5)
        await putBack(settings, kept, document)
        // By now the log is as long again, but another one.
        const server = await serve({...settings, restored: way == "told"}), {version, epoch} = await write(server, document, 4)
        assert.equal(version, 7)
        assert.notEqual(epoch, gone.epoch)
        assert.deepEqual(await back(server, document, gone), GONE)
        assert.deepEqual(await back(server, document, {version: null}), [7])
        await server.stop()
        // What is restored stays what it is.
        const again = await serve(settings)
        assert.deepEqual(await back(again, document, {...gone, epoch}), [7])
        await again.stop()
      })

    test("an editor begins anew, and is told what it lost", async () => {
      const line = await new Line().open(), engine = await openEngine({kind: "wasm"}), resets = []
      const start = async (more = {}) => {
        const server = await serve({...settings, origins: [line.address], ...more})
        line.target = server.port
        return server
      }
      const first = await start()
      const session = await joinDocument({
        url: `${line.address.replace("http", "ws")}/documents/edited`, token: tokenFor("ann"), schema, engine, packages,
        WebSocket: packageOf("ws"), onReset: (...it) => resets.push(it),
      })
      const view = new Desk(session.createState()), type = text => view.dispatch(view.state.tr.insertText(text, 1))
      type("one")
      await until(() => session.isSettled && session.log.version == 1, "it is settled")
      const {epoch} = session
      line.cut()
      await until(() => session.connection == "offline", "it is offline")
      await first.stop()
      type("two")
      type("three")
      const second = await start({restored: true})
      line.mend()
      await until(() => resets.length == 1, "it begins anew")
      const [[lost, steps]] = resets
      assert.equal(lost.textContent, "threetwoone")
      assert.deepEqual(steps.map(it => it.slice.content[0].text), ["two", "three"])
      assert.equal(view.state.doc.textContent, settings.store == "memory" ? "" : "one")
      assert.notEqual(session.epoch, epoch)
      type("four")
      await until(() => session.isSettled && session.log.version > 0, "it goes on")
      assert.equal((await session.history()).textContent, "")
      session.close()
      await line.close()
      await second.stop()
    })
  })
}

// ---- files in a folder

const folderOf = ({folder}) => fs.readdirSync(folder).map(name => path.join(folder, name))

const written = (files, isMeant = () => true) => {
  for (const [file, bytes] of files) if (isMeant(path.basename(file))) fs.writeFileSync(file, bytes)
}

const overFiles = (store, logOf) => suite(store, {
  make: () => ({store, folder: newFolder()}),
  save: async settings => folderOf(settings).map(file => [file, fs.readFileSync(file)]),
  ways: {
    "into an empty folder": (settings, files) => {
      for (const file of folderOf(settings)) fs.rmSync(file)
      written(files)
    },
    "over what is there": (_settings, files) => written(files),
    "a document without its epoch": (_settings, files, document) =>
      written(files, name => name == logOf(document) || name == `${document}.notes`),
    "an epoch is taken away": ({folder}, files, document) => {
      written(files, name => name == logOf(document))
      fs.rmSync(path.join(folder, `${document}.epoch`))
    },
    told: (_settings, files) => written(files, name => name.endsWith(".log") || name.endsWith(".notes")),
  },
  skip: skipsFiles,
})

for (const [store, logOf] of Object.entries(LOGS)) overFiles(store, logOf)

// ---- PostgreSQL

const postgres = await startPostgres()
after(() => postgres.stop())
suite("postgres", {
  make: () => ({store: "postgres", database: postgres.database("epochs")}),
  save: async () => postgres.dump("epochs"),
  ways: {
    dumped: (_settings, dumped) => postgres.restore("epochs", dumped),
    told: (_settings, _dumped, document) => {
      for (const table of ["entries", "snapshots"])
        postgres.run("epochs", `DELETE FROM gezhufet_${table} WHERE document = '${document}' AND version >= 3`)
    },
  },
  skip: postgres.missing ?? false,
})

suite("memory", {make: () => ({store: "memory"}), ways: {}})
