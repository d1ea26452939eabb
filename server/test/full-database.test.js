// The database takes nothing more, since its disk is full, and has room again: what is not taken is told, and nothing is lost.

import assert from "node:assert/strict"
import {execFileSync} from "node:child_process"
import {after, describe, test} from "node:test"
import {smallDisk} from "./disk.js"
import {startPostgres} from "./postgres.js"
import {serve} from "./servers.js"
import {join} from "./talker.js"
import {editorsAt, finish, many} from "./together.js"
import {until} from "./waiting.js"

const postgres = await startPostgres(), disk = postgres.missing ? null : smallDisk("24m")
after(async () => {
  await postgres.stop()
  disk?.end()
})

const healthOf = async server => {
  const response = await fetch(`${server.address}/health`)
  return [response.status, (await response.json()).status]
}

async function fullAndFree(name, database, {fill, free}) {
  const server = await serve({store: "postgres", database, ...many}), ann = await join(server.address, "full", "ann")
  const editors = await editorsAt([server.address], "full", 3)
  assert.deepEqual(await healthOf(server), [200, "ok"])
  await Promise.all(editors.map(it => it.typeOn(5, 20)))
  await Promise.all(editors.map(it => it.settled()))
  fill()
  await Promise.all(editors.map(it => it.typeOn(100, 2)))
  await until(() => server.lines.some(it => it.event == "refused" && it.code == "store"), "the full disk is told")
  assert.deepEqual(await healthOf(server), [503, "the store refuses what is to be kept"])
  // What is there is read as before.
  const {version} = await ann.ask({op: "since", version: 0}), rows = "SELECT step FROM gezhufet_entries ORDER BY version"
  assert.equal((await postgres.rows(name, rows)).length >= version, true)
  assert.ok(editors.some(it => it.pending > 0))
  free()
  assert.deepEqual(await healthOf(server), [200, "ok"])
  const {steps} = await finish([server.address], "full", editors)
  assert.deepEqual((await postgres.rows(name, rows)).map(it => JSON.parse(it.step)), steps)
  assert.ok(editors.every(it => it.moves == 0))
  await ann.close()
  await server.stop()
}

const REFUSE = `
CREATE FUNCTION refuse() RETURNS trigger LANGUAGE plpgsql AS $$ BEGIN
  RAISE EXCEPTION 'could not extend file: No space left on device' USING ERRCODE = '53100'; END $$;
CREATE TRIGGER refuse BEFORE INSERT ON gezhufet_entries EXECUTE FUNCTION refuse()`

describe("a database without room", {skip: postgres.missing ?? false}, () => {
  test("that says so", async () => {
    const database = postgres.database("refusing")
    await fullAndFree("refusing", database, {
      fill: () => postgres.run("refusing", REFUSE), free: () => postgres.run("refusing", "DROP TRIGGER refuse ON gezhufet_entries"),
    })
  })

  test("on a small disk", {skip: disk ? false : "no disk can be mounted here"}, async () => {
    execFileSync("chown", ["postgres", disk.folder])
    await fullAndFree("small", postgres.database("small", disk.folder), disk)
  })
})
