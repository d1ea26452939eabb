// The server, the engine's process and the disk fail in the midst: what was accepted stays, once.

import assert from "node:assert/strict"
import fs from "node:fs"
import path from "node:path"
import {test} from "node:test"
import {setTimeout as wait} from "node:timers/promises"
import {smallDisk} from "./disk.js"
import {relayTo} from "./network.js"
import {LOGS, newFolder, serve, skipsFiles, spawnServer} from "./servers.js"
import {join} from "./talker.js"
import {editorsAt, finish, many} from "./together.js"
import {until} from "./waiting.js"

const skip = skipsFiles

for (const [store, logOf] of Object.entries(LOGS)) {
  test(`the server is ended by force, and starts again on its folder, ${store}`, {skip}, async () => {
    const folder = newFolder(), settings = {store, folder, ...many}
    const first = await spawnServer(settings)
    const relays = [await relayTo(first.port)], addresses = [relays[0].address]
    const editors = await editorsAt(addresses, "forced", 4)
    const typing = editors.map(it => it.typeOn(16, 100))
    await wait(700)
    await first.kill()
    const second = await spawnServer(settings)
    addresses[0] = second.address
    await Promise.all(typing)
    await finish([second.address], "forced", editors)
    assert.ok(editors.every(it => it.moves > 0))
    await relays[0].close()
    assert.equal(await second.stop(), 0)
    // What is in the folder is what the program itself reads.
    assert.ok(fs.readFileSync(path.join(folder, logOf("forced")), "utf8").split("\n").length > 5)
  })

  test(`the engine's process is ended by force, ${store}`, {skip}, async () => {
    const server = await serve({store, folder: newFolder(), ...many}), names = ["killed", "killed-too"]
    const rooms = await Promise.all(names.map(it => editorsAt([server.address], it, 3))), all = rooms.flat()
    const typing = all.map(it => it.typeOn(15, 90))
    for (let times = 0; times < 2; times++) {
      await wait(400)
      const documents = await server.documents.all()
      for (const pid of new Set(documents.map(it => it.held.pid))) process.kill(pid, "SIGKILL")
    }
    await Promise.all(typing)
    for (const [i, name] of names.entries()) await finish([server.address], name, rooms[i])
    for (const editors of rooms) assert.ok(editors.some(it => it.closes.includes(4503)))
    await server.stop()
  })

  test(`the disk is full, and has room again, ${store}`, {skip}, async context => {
    const disk = smallDisk("400k")
    if (!disk) return context.skip("no disk can be mounted here")
    const server = await serve({store, folder: disk.folder, ...many}), names = ["full", "full-too"]
    try {
      for (const name of names) await (await join(server.address, name, "ann")).submit(0, "a")
      disk.fill()
      const rooms = await Promise.all(names.map(it => editorsAt([server.address], it, 2)))
      for (const editor of rooms.flat()) await editor.typeOn(40, 2)
      await until(async () => (await fetch(`${server.address}/health`)).status == 503, "the server is not well")
      for (const editors of rooms) assert.ok(editors.some(it => it.pending > 0))
      disk.free()
      for (const [i, name] of names.entries()) await finish([server.address], name, rooms[i])
      assert.equal((await fetch(`${server.address}/health`)).status, 200)
    } finally {
      await server.stop()
      disk.end()
    }
  })
}
