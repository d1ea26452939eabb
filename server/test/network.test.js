// The network is slow and breaks off in the midst: what was accepted stays, once.

import assert from "node:assert/strict"
import {test} from "node:test"
import {setTimeout as wait} from "node:timers/promises"
import {random} from "./random.js"
import {relayTo} from "./network.js"
import {serve} from "./servers.js"
import {editorsAt, finish, many} from "./together.js"

test("eight editors over a network that is slow and breaks off", async () => {
  const server = await serve(many), pick = random(5)
  const relay = await relayTo(server.port, () => (pick() < 0.3 ? 40 * pick() : 0))
  const editors = await editorsAt([relay.address], "network", 8)
  const typing = editors.map(it => it.typeOn(8, 150))
  for (let times = 0; times < 6; times++) {
    await wait(200)
    relay.cut(() => pick() < 0.4)
  }
  await Promise.all(typing)
  await finish([server.address], "network", editors)
  assert.ok(editors.some(it => it.moves > 0))
  await relay.close()
  await server.stop()
})
